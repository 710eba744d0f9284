#ifndef SHIM_VMALLOC_H
#define SHIM_VMALLOC_H
#include <linux/types.h>
extern void *vmalloc(unsigned long size);
extern void *vzalloc(unsigned long size);
extern void vfree(const void *block);
#endif
