#ifndef SHIM_OF_DEVICE_H
#define SHIM_OF_DEVICE_H
#include <linux/of.h>
#include <linux/platform_device.h>
#endif
