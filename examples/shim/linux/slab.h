#ifndef SHIM_SLAB_H
#define SHIM_SLAB_H
#include <linux/errno.h>
#include <linux/gfp.h>
#include <linux/limits.h>
#include <linux/overflow.h>
#define ZERO_SIZE_PTR ((void *)16)
#define ZERO_OR_NULL_PTR(block) ((unsigned long)(block) <= (unsigned long)ZERO_SIZE_PTR)
#define ARCH_KMALLOC_MINALIGN 8
#define KMALLOC_MAX_SIZE (1UL << 22)
#define SLAB_PANIC ((__force slab_flags_t)0x40000u)
#define SLAB_HWCACHE_ALIGN ((__force slab_flags_t)0x2000u)
struct kmem_cache;
extern void *kmalloc(size_t size, gfp_t flags);
extern void *kzalloc(size_t size, gfp_t flags);
extern void *kcalloc(size_t count, size_t size, gfp_t flags);
extern void *kmalloc_array(size_t count, size_t size, gfp_t flags);
extern void *krealloc(const void *block, size_t size, gfp_t flags);
extern void *kvmalloc(size_t size, gfp_t flags);
extern void kfree(const void *block);
extern void kvfree(const void *block);
extern void kfree_sensitive(const void *block);
extern struct kmem_cache *kmem_cache_create(const char *name, size_t size, size_t align, slab_flags_t flags, void (*make)(void *));
extern void kmem_cache_destroy(struct kmem_cache *cache);
extern void *kmem_cache_alloc(struct kmem_cache *cache, gfp_t flags);
extern void *kmem_cache_zalloc(struct kmem_cache *cache, gfp_t flags);
extern void kmem_cache_free(struct kmem_cache *cache, void *block);
#define KMEM_CACHE(name, flags) kmem_cache_create(#name, sizeof(struct name), 8, flags, NULL)
#endif
