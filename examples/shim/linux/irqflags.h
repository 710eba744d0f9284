#ifndef SHIM_IRQFLAGS_H
#define SHIM_IRQFLAGS_H
extern unsigned long irq_save_and_disable(void);
extern void local_irq_restore(unsigned long flags);
#define local_irq_save(flags) do { (flags) = irq_save_and_disable(); } while (0)
extern void local_irq_disable(void);
extern void local_irq_enable(void);
#define local_bh_disable() do { } while (0)
#define local_bh_enable() do { } while (0)
#endif
