#ifndef SHIM_KOBJECT_H
#define SHIM_KOBJECT_H
#include <linux/kref.h>
#include <linux/list.h>
struct kobject {
	const char *name;
	struct kobject *parent;
	struct kref kref;
};
extern struct kobject *kobject_get(struct kobject *object);
extern void kobject_put(struct kobject *object);
#endif
