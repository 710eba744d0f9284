#ifndef SHIM_MM_H
#define SHIM_MM_H
#include <asm/page.h>
#include <linux/kernel.h>
#include <linux/slab.h>
#include <linux/vmalloc.h>
struct page;
extern void *page_address(const struct page *page);
extern struct page *virt_to_page(const void *address);
extern bool is_vmalloc_addr(const void *address);
extern void *alloc_pages_exact(size_t size, gfp_t flags);
extern void free_pages_exact(void *block, size_t size);
extern phys_addr_t virt_to_phys(const volatile void *address);
#define PAGE_ALIGN(size) ALIGN(size, PAGE_SIZE)
#define offset_in_page(address) ((unsigned long)(address) & ~PAGE_MASK)
#endif
