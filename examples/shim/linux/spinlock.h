#ifndef SHIM_SPINLOCK_H
#define SHIM_SPINLOCK_H
#include <linux/types.h>
#include <linux/compiler.h>
typedef struct {
	u32 raw;
} spinlock_t, raw_spinlock_t, arch_spinlock_t;
#define __RAW_SPIN_LOCK_UNLOCKED(name) { 0 }
#define __SPIN_LOCK_UNLOCKED(name) { 0 }
#define DEFINE_SPINLOCK(name) spinlock_t name = __SPIN_LOCK_UNLOCKED(name)
#define DEFINE_RAW_SPINLOCK(name) raw_spinlock_t name = { 0 }
extern void spin_lock_init(spinlock_t *lock);
extern void spin_lock(spinlock_t *lock) __acquires(lock);
extern void spin_unlock(spinlock_t *lock) __releases(lock);
extern void spin_lock_irq(spinlock_t *lock) __acquires(lock);
extern void spin_unlock_irq(spinlock_t *lock) __releases(lock);
extern void spin_lock_bh(spinlock_t *lock) __acquires(lock);
extern void spin_unlock_bh(spinlock_t *lock) __releases(lock);
extern unsigned long spin_lock_and_save(spinlock_t *lock) __acquires(lock);
extern void spin_unlock_irqrestore(spinlock_t *lock, unsigned long flags) __releases(lock);
#define spin_lock_irqsave(lock, flags) do { (flags) = spin_lock_and_save(lock); } while (0)
#define raw_spin_lock_init(lock) spin_lock_init(lock)
#define raw_spin_lock(lock) spin_lock(lock)
#define raw_spin_unlock(lock) spin_unlock(lock)
#define raw_spin_lock_irqsave(lock, flags) spin_lock_irqsave(lock, flags)
#define raw_spin_unlock_irqrestore(lock, flags) spin_unlock_irqrestore(lock, flags)
#define assert_spin_locked(lock) do { } while (0)
#define lockdep_is_held(lock) 1
#define lockdep_assert_held(lock) do { } while (0)
extern int spin_is_locked(spinlock_t *lock);
extern int spin_trylock_held(spinlock_t *lock);
/* Where it is true the lock is held. */
#define spin_trylock(lock) __cond_lock(lock, spin_trylock_held(lock))
#endif
