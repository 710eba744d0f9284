#ifndef SHIM_INTERRUPT_H
#define SHIM_INTERRUPT_H
#include <linux/device.h>
#include <linux/irqflags.h>
#include <linux/irqreturn.h>
typedef irqreturn_t (*irq_handler_t)(int number, void *data);
extern int request_irq(unsigned int number, irq_handler_t handler, unsigned long flags, const char *name, void *data);
extern int devm_request_irq(struct device *device, unsigned int number, irq_handler_t handler, unsigned long flags, const char *name, void *data);
extern void free_irq(unsigned int number, void *data);
#define IRQF_SHARED 0x80
#define IRQF_NO_SUSPEND 0x4000
struct tasklet_struct {
	unsigned long state;
	void (*callback)(struct tasklet_struct *task);
};
extern void tasklet_setup(struct tasklet_struct *task, void (*callback)(struct tasklet_struct *));
extern void tasklet_schedule(struct tasklet_struct *task);
extern void tasklet_kill(struct tasklet_struct *task);
#define from_tasklet(to, task, member) container_of(task, typeof(*to), member)
#endif
