#ifndef SHIM_COMPLETION_H
#define SHIM_COMPLETION_H
#include <linux/wait.h>
struct completion {
	unsigned int done;
	wait_queue_head_t wait;
};
extern void init_completion(struct completion *done);
extern void reinit_completion(struct completion *done);
extern void complete(struct completion *done);
extern void complete_all(struct completion *done);
extern void wait_for_completion(struct completion *done);
extern unsigned long wait_for_completion_timeout(struct completion *done, unsigned long timeout);
extern long wait_for_completion_interruptible(struct completion *done);
extern int wait_for_completion_killable(struct completion *done);
#endif
