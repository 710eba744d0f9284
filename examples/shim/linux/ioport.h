#ifndef SHIM_IOPORT_H
#define SHIM_IOPORT_H
#include <linux/types.h>
#define IORESOURCE_IO 0x100
#define IORESOURCE_MEM 0x200
#define IORESOURCE_IRQ 0x400
struct resource {
	resource_size_t start, end;
	const char *name;
	unsigned long flags;
};
static inline resource_size_t resource_size(const struct resource *resource)
{
	return resource->end - resource->start + 1;
}
extern struct resource *request_mem_region(resource_size_t start, resource_size_t size, const char *name);
extern void release_mem_region(resource_size_t start, resource_size_t size);
#endif
