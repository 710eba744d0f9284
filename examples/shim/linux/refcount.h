#ifndef SHIM_REFCOUNT_H
#define SHIM_REFCOUNT_H
#include <linux/atomic.h>
typedef struct {
	atomic_t refs;
} refcount_t;
extern void refcount_set(refcount_t *count, int to);
extern void refcount_inc(refcount_t *count);
extern bool refcount_inc_not_zero(refcount_t *count);
extern bool refcount_dec_and_test(refcount_t *count);
extern bool refcount_dec_not_one(refcount_t *count);
#endif
