#ifndef SHIM_DEVICE_H
#define SHIM_DEVICE_H
#include <linux/err.h>
#include <linux/export.h>
#include <linux/gfp.h>
#include <linux/ioport.h>
#include <linux/kobject.h>
#include <linux/rcupdate.h>
#include <linux/list.h>
#include <linux/io.h>
#include <linux/mutex.h>
#include <linux/slab.h>
struct device_node;
struct device_driver;
struct class;
struct device {
	struct kobject kobj;
	struct device *parent;
	const char *init_name;
	void *platform_data;
	void *driver_data;
	struct device_node *of_node;
	dev_t devt;
	u32 id;
	void (*release)(struct device *device);
};
struct of_device_id {
	char name[32];
	char type[32];
	char compatible[128];
	const void *data;
};
struct dev_pm_ops;
struct device_driver {
	const char *name;
	struct module *owner;
	const struct of_device_id *of_match_table;
	const struct dev_pm_ops *pm;
	bool suppress_bind_attrs;
};
extern const char *dev_name(const struct device *device);
static inline void *dev_get_drvdata(const struct device *device)
{
	return device->driver_data;
}
static inline void dev_set_drvdata(struct device *device, void *data)
{
	device->driver_data = data;
}
static inline void *dev_get_platdata(const struct device *device)
{
	return device->platform_data;
}
extern int dev_print(const struct device *device, const char *format, ...);
#define dev_err(device, ...) dev_print(device, __VA_ARGS__)
#define dev_warn(device, ...) dev_print(device, __VA_ARGS__)
#define dev_notice(device, ...) dev_print(device, __VA_ARGS__)
#define dev_info(device, ...) dev_print(device, __VA_ARGS__)
#define dev_vdbg(device, ...) dev_print(device, __VA_ARGS__)
#define dev_dbg(device, ...) dev_print(device, __VA_ARGS__)
extern int dev_err_probe(const struct device *device, int error, const char *format, ...);
extern void *devm_kzalloc(struct device *device, size_t size, gfp_t flags);
extern void *devm_kmalloc(struct device *device, size_t size, gfp_t flags);
extern void *devm_kcalloc(struct device *device, size_t count, size_t size, gfp_t flags);
extern void devm_kfree(struct device *device, const void *block);
extern char *devm_kasprintf(struct device *device, gfp_t flags, const char *format, ...);
extern int devm_add_action_or_reset(struct device *device, void (*action)(void *), void *data);
extern void *devres_alloc(void (*release)(struct device *, void *), size_t size, gfp_t flags);
extern void devres_add(struct device *device, void *resource);
extern void devres_free(void *resource);
extern int devres_release(struct device *device, void (*release)(struct device *, void *), int (*match)(struct device *, void *, void *), void *data);
extern struct device *get_device(struct device *device);
extern void put_device(struct device *device);
#endif
