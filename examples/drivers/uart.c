// A driver of a serial port whose registers are mapped into memory.
#include <linux/io.h>
#include <linux/platform_device.h>
#include <linux/slab.h>
#include <linux/spinlock.h>

struct uart_registers {
	u32 data;
	u32 status;
	u32 control;
	u32 reserved[5];
	u32 divisor;
};

#define UART_READY BIT(0)
#define UART_FULL BIT(5)
#define UART_ENABLE BIT(31)

struct uart_port {
	struct uart_registers __iomem *registers;
	spinlock_t lock;
	unsigned int clock, sent;
};

static void uart_set_speed(struct uart_port *port, unsigned int speed)
{
	u32 divisor = port->clock / (16 * speed);

	spin_lock(&port->lock);
	writel(0, &port->registers->control);
	writel(divisor ? divisor : 1, &port->registers->divisor);
	writel((u32)UART_ENABLE, &port->registers->control);
	spin_unlock(&port->lock);
}

static int uart_wait(struct uart_port *port)
{
	unsigned int tries = 1000;

	while (readl(&port->registers->status) & UART_FULL) {
		if (!--tries)
			return -ETIMEDOUT;
	}
	return 0;
}

static int uart_send(struct uart_port *port, const u8 *bytes, unsigned int count)
{
	unsigned int at;
	int error = 0;

	spin_lock(&port->lock);
	for (at = 0; at < count; at++) {
		error = uart_wait(port);
		if (error)
			break;
		writel(bytes[at], &port->registers->data);
		port->sent++;
	}
	spin_unlock(&port->lock);
	return error;
}

static int uart_probe(struct platform_device *device)
{
	static const u8 greeting[] = { 'o', 'k', '\n' };
	struct resource *memory;
	struct uart_port *port;

	if (device->num_resources < 1)
		return -ENODEV;
	memory = &device->resource[0];
	port = kzalloc(sizeof(*port), GFP_KERNEL);
	if (!port)
		return -ENOMEM;
	port->registers = ioremap(memory->start, (size_t)(memory->end - memory->start + 1));
	if (!port->registers) {
		kfree(port);
		return -ENOMEM;
	}
	spin_lock_init(&port->lock);
	port->clock = 48000000;
	platform_set_drvdata(device, port);
	uart_set_speed(port, 115200);
	return uart_send(port, greeting, ARRAY_SIZE(greeting));
}

static int uart_remove(struct platform_device *device)
{
	struct uart_port *port = platform_get_drvdata(device);

	iounmap(port->registers);
	kfree(port);
	return 0;
}

static struct platform_driver uart_driver = {
	.probe = uart_probe,
	.remove = uart_remove,
	.driver = { .name = "uart", .owner = THIS_MODULE },
};

static int __init uart_init(void)
{
	return platform_driver_register(&uart_driver);
}

static void __exit uart_exit(void)
{
	platform_driver_unregister(&uart_driver);
}

module_init(uart_init);
module_exit(uart_exit);
MODULE_LICENSE("GPL");
