#ifndef SHIM_MUTEX_H
#define SHIM_MUTEX_H
#include <linux/spinlock.h>
#include <linux/types.h>
struct mutex {
	atomic_long_t owner;
};
/* A kernel's headers give its checker no contexts of mutexes. */
#define DEFINE_MUTEX(name) struct mutex name = { { 0 } }
extern void mutex_init(struct mutex *lock);
extern void mutex_destroy(struct mutex *lock);
extern void mutex_lock(struct mutex *lock);
extern int __must_check mutex_lock_interruptible(struct mutex *lock);
extern int mutex_trylock(struct mutex *lock);
extern void mutex_unlock(struct mutex *lock);
#endif
