#ifndef SHIM_IRQRETURN_H
#define SHIM_IRQRETURN_H
typedef enum irqreturn {
	IRQ_NONE,
	IRQ_HANDLED,
	IRQ_WAKE_THREAD,
} irqreturn_t;
#endif
