#ifndef SHIM_JIFFIES_H
#define SHIM_JIFFIES_H
#include <linux/types.h>
#include <linux/math64.h>
#include <linux/time64.h>
#define HZ 250
extern unsigned long volatile jiffies;
extern unsigned long msecs_to_jiffies(unsigned int milliseconds);
extern unsigned long usecs_to_jiffies(unsigned int microseconds);
extern unsigned int jiffies_to_msecs(unsigned long ticks);
#define time_after(a, b) ((long)((b) - (a)) < 0)
#define time_before(a, b) time_after(b, a)
#define time_after_eq(a, b) ((long)((a) - (b)) >= 0)
#define time_before_eq(a, b) time_after_eq(b, a)
#define time_is_before_jiffies(a) time_after(jiffies, a)
#define MAX_JIFFY_OFFSET ((~0UL >> 1) - 1)
#endif
