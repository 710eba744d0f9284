#ifndef SHIM_HRTIMER_H
#define SHIM_HRTIMER_H
#include <linux/ktime.h>
#include <linux/timer.h>
enum hrtimer_restart {
	HRTIMER_NORESTART,
	HRTIMER_RESTART,
};
enum hrtimer_mode {
	HRTIMER_MODE_ABS,
	HRTIMER_MODE_REL,
};
struct hrtimer {
	ktime_t expires;
	enum hrtimer_restart (*function)(struct hrtimer *timer);
};
extern void hrtimer_init(struct hrtimer *timer, int clock, enum hrtimer_mode mode);
extern void hrtimer_start(struct hrtimer *timer, ktime_t at, enum hrtimer_mode mode);
extern int hrtimer_cancel(struct hrtimer *timer);
extern u64 hrtimer_forward_now(struct hrtimer *timer, ktime_t by);
#define CLOCK_MONOTONIC 1
#endif
