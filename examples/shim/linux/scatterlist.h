#ifndef SHIM_SCATTERLIST_H
#define SHIM_SCATTERLIST_H
#include <linux/mm.h>
#include <linux/dma-mapping.h>
struct scatterlist {
	unsigned long page_link;
	unsigned int offset, length;
	dma_addr_t dma_address;
};
struct sg_table {
	struct scatterlist *sgl;
	unsigned int nents, orig_nents;
};
extern struct scatterlist *sg_next(struct scatterlist *at);
extern struct page *sg_page(struct scatterlist *at);
extern dma_addr_t sg_phys(struct scatterlist *at);
extern void *sg_virt(struct scatterlist *at);
extern void sg_init_table(struct scatterlist *list, unsigned int count);
extern void sg_init_one(struct scatterlist *list, const void *block, unsigned int size);
#define for_each_sg(list, at, count, number) for (number = 0, at = (list); number < (count); number++, at = sg_next(at))
#endif
