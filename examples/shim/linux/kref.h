#ifndef SHIM_KREF_H
#define SHIM_KREF_H
#include <linux/refcount.h>
struct kref {
	refcount_t refcount;
};
extern void kref_init(struct kref *count);
extern void kref_get(struct kref *count);
extern int kref_get_unless_zero(struct kref *count);
extern int kref_put(struct kref *count, void (*release)(struct kref *count));
#endif
