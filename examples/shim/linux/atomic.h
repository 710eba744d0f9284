#ifndef SHIM_ATOMIC_H
#define SHIM_ATOMIC_H
#include <linux/types.h>
#include <linux/compiler.h>
#define ATOMIC_INIT(number) { (number) }
extern int atomic_read(const atomic_t *number);
extern void atomic_set(atomic_t *number, int to);
extern void atomic_add(int by, atomic_t *number);
extern void atomic_sub(int by, atomic_t *number);
extern void atomic_inc(atomic_t *number);
extern void atomic_dec(atomic_t *number);
extern int atomic_add_return(int by, atomic_t *number);
extern int atomic_inc_return(atomic_t *number);
extern int atomic_dec_return(atomic_t *number);
extern bool atomic_dec_and_test(atomic_t *number);
extern bool atomic_inc_not_zero(atomic_t *number);
extern int atomic_add_unless(atomic_t *number, int by, int unless);
extern int atomic_cmpxchg(atomic_t *number, int from, int to);
extern s64 atomic64_read(const atomic64_t *number);
extern void atomic64_set(atomic64_t *number, s64 to);
extern void atomic64_add(s64 by, atomic64_t *number);
extern long atomic_long_read(const atomic_long_t *number);
extern unsigned long word_exchange(volatile void *place, unsigned long from, unsigned long to);
#define cmpxchg(place, from, to) ((typeof(*(place)))word_exchange((place), (unsigned long)(from), (unsigned long)(to)))
#define cmpxchg_relaxed(place, from, to) cmpxchg(place, from, to)
#define try_cmpxchg(place, from, to) \
	({ typeof(*(place)) before_ = *(from); *(from) = cmpxchg(place, before_, to); *(from) == before_; })
#define xchg(place, to) ((typeof(*(place)))word_exchange((place), 0, (unsigned long)(to)))
#define smp_mb() barrier()
#define smp_rmb() barrier()
#define smp_wmb() barrier()
#define smp_load_acquire(place) READ_ONCE(*(place))
#define smp_store_release(place, value) WRITE_ONCE(*(place), value)
#define smp_mb__before_atomic() barrier()
#define smp_mb__after_atomic() barrier()
#endif
