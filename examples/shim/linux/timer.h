#ifndef SHIM_TIMER_H
#define SHIM_TIMER_H
#include <linux/jiffies.h>
#include <linux/list.h>
struct timer_list {
	unsigned long expires;
	void (*function)(struct timer_list *timer);
	u32 flags;
};
extern void timer_setup(struct timer_list *timer, void (*function)(struct timer_list *), unsigned int flags);
extern int mod_timer(struct timer_list *timer, unsigned long expires);
extern int del_timer(struct timer_list *timer);
extern int del_timer_sync(struct timer_list *timer);
extern void add_timer(struct timer_list *timer);
#define from_timer(to, timer, member) container_of(timer, typeof(*to), member)
#endif
