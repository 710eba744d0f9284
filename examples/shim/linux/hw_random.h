#ifndef SHIM_HW_RANDOM_H
#define SHIM_HW_RANDOM_H
#include <linux/completion.h>
#include <linux/kref.h>
#include <linux/list.h>
struct hwrng {
	const char *name;
	int (*init)(struct hwrng *source);
	void (*cleanup)(struct hwrng *source);
	int (*data_present)(struct hwrng *source, int wait);
	int (*data_read)(struct hwrng *source, u32 *data);
	int (*read)(struct hwrng *source, void *data, size_t most, bool wait);
	unsigned long priv;
	unsigned short quality;
};
struct device;
extern int hwrng_register(struct hwrng *source);
extern void hwrng_unregister(struct hwrng *source);
extern int devm_hwrng_register(struct device *device, struct hwrng *source);
#endif
