#ifndef SHIM_SCHED_H
#define SHIM_SCHED_H
#include <linux/irqflags.h>
#include <linux/kernel.h>
#include <linux/list.h>
#include <linux/spinlock.h>
#define TASK_INTERRUPTIBLE 1
#define TASK_UNINTERRUPTIBLE 2
#define TASK_RUNNING 0
#define TASK_COMM_LEN 16
struct task_struct {
	unsigned int state;
	unsigned long flags;
	pid_t pid;
	char comm[TASK_COMM_LEN];
};
extern struct task_struct *get_current(void);
#define current get_current()
extern void schedule(void);
extern long schedule_timeout(long timeout);
extern int wake_up_process(struct task_struct *task);
extern int signal_pending(struct task_struct *task);
extern void set_current_state_to(unsigned int state);
#define set_current_state(to) set_current_state_to(to)
#define __set_current_state(to) set_current_state_to(to)
extern int cond_resched(void);
extern void cpu_relax(void);
extern void get_task_struct(struct task_struct *task);
extern void put_task_struct(struct task_struct *task);
#endif
