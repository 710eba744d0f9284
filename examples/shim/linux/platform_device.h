#ifndef SHIM_PLATFORM_DEVICE_H
#define SHIM_PLATFORM_DEVICE_H
#include <linux/device.h>
#include <linux/module.h>
#include <linux/mod_devicetable.h>
struct platform_device {
	const char *name;
	int id;
	struct device dev;
	unsigned int num_resources;
	struct resource *resource;
};
struct platform_driver {
	int (*probe)(struct platform_device *);
	int (*remove)(struct platform_device *);
	void (*shutdown)(struct platform_device *);
	struct device_driver driver;
	const struct platform_device_id *id_table;
};
extern int platform_driver_register(struct platform_driver *driver);
extern void platform_driver_unregister(struct platform_driver *driver);
#define module_platform_driver(driver) extern struct platform_driver *module_driver_(typeof(driver) *)
#define builtin_platform_driver(driver) module_platform_driver(driver)
#define module_platform_driver_probe(driver, probe) extern struct platform_driver *module_driver_(typeof(driver) *, typeof(probe) *)
extern int platform_get_irq(struct platform_device *device, unsigned int number);
extern struct resource *platform_get_resource(struct platform_device *device, unsigned int kind, unsigned int number);
extern void __iomem *devm_platform_ioremap_resource(struct platform_device *device, unsigned int number);
extern void __iomem *devm_platform_get_and_ioremap_resource(struct platform_device *device, unsigned int number, struct resource **resource);
static inline void platform_set_drvdata(struct platform_device *device, void *data)
{
	device->dev.driver_data = data;
}
static inline void *platform_get_drvdata(const struct platform_device *device)
{
	return device->dev.driver_data;
}
#endif
