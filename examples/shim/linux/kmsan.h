#ifndef SHIM_KMSAN_H
#define SHIM_KMSAN_H
#include <linux/dma-mapping.h>
struct page;
extern void kmsan_handle_dma(struct page *page, size_t offset, size_t size, enum dma_data_direction direction);
#endif
