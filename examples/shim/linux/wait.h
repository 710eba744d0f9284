#ifndef SHIM_WAIT_H
#define SHIM_WAIT_H
#include <linux/list.h>
#include <linux/spinlock.h>
#include <linux/sched.h>
typedef struct wait_queue_head {
	spinlock_t lock;
	struct list_head head;
} wait_queue_head_t;
typedef struct wait_queue_entry {
	unsigned int flags;
	void *private;
	struct list_head entry;
} wait_queue_entry_t;
#define DECLARE_WAIT_QUEUE_HEAD(name) wait_queue_head_t name = { { 0 }, LIST_HEAD_INIT(name.head) }
extern void init_waitqueue_head(wait_queue_head_t *queue);
extern void wake_up(wait_queue_head_t *queue);
extern void wake_up_all(wait_queue_head_t *queue);
extern void wake_up_interruptible(wait_queue_head_t *queue);
extern void wait_once(wait_queue_head_t *queue);
extern int wait_once_interruptible(wait_queue_head_t *queue);
#define wait_event(queue, condition) do { while (!(condition)) wait_once(&(queue)); } while (0)
#define wait_event_interruptible(queue, condition) \
	({ int wait_ = 0; while (!wait_ && !(condition)) wait_ = wait_once_interruptible(&(queue)); wait_; })
#endif
