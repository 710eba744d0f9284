#ifndef SHIM_MOD_DEVICETABLE_H
#define SHIM_MOD_DEVICETABLE_H
#include <linux/types.h>
#include <linux/device.h>
struct virtio_device_id {
	__u32 device, vendor;
};
struct platform_device_id {
	char name[20];
	__kernel_ulong_t driver_data;
};
#endif
