#ifndef SHIM_DMA_MAPPING_H
#define SHIM_DMA_MAPPING_H
#include <linux/device.h>
struct cpumask;
struct page;
enum dma_data_direction {
	DMA_BIDIRECTIONAL,
	DMA_TO_DEVICE,
	DMA_FROM_DEVICE,
	DMA_NONE,
};
extern void *dma_alloc_coherent(struct device *device, size_t size, dma_addr_t *at, gfp_t flags);
extern void dma_free_coherent(struct device *device, size_t size, void *block, dma_addr_t at);
extern dma_addr_t dma_map_single(struct device *device, void *block, size_t size, enum dma_data_direction direction);
extern void dma_unmap_single(struct device *device, dma_addr_t at, size_t size, enum dma_data_direction direction);
#define DMA_MAPPING_ERROR (~(dma_addr_t)0)
extern dma_addr_t dma_map_page(struct device *device, struct page *page, size_t from, size_t size, enum dma_data_direction direction);
extern void dma_unmap_page(struct device *device, dma_addr_t at, size_t size, enum dma_data_direction direction);
extern dma_addr_t dma_map_single_attrs(struct device *device, void *block, size_t size, enum dma_data_direction direction, unsigned long how);
extern void dma_unmap_single_attrs(struct device *device, dma_addr_t at, size_t size, enum dma_data_direction direction, unsigned long how);
extern bool dma_need_sync(struct device *device, dma_addr_t at);
extern void dma_sync_single_range_for_cpu(struct device *device, dma_addr_t at, unsigned long from, size_t size, enum dma_data_direction direction);
extern void dma_sync_single_range_for_device(struct device *device, dma_addr_t at, unsigned long from, size_t size, enum dma_data_direction direction);
extern size_t dma_max_mapping_size(struct device *device);
extern int dma_mapping_error(struct device *device, dma_addr_t at);
#endif
