#ifndef SHIM_DELAY_H
#define SHIM_DELAY_H
#include <linux/jiffies.h>
extern void udelay(unsigned long microseconds);
extern void ndelay(unsigned long nanoseconds);
extern void mdelay(unsigned long milliseconds);
extern void msleep(unsigned int milliseconds);
extern unsigned long msleep_interruptible(unsigned int milliseconds);
extern void usleep_range(unsigned long least, unsigned long most);
extern void ssleep(unsigned int seconds);
#endif
