#ifndef SHIM_GFP_H
#define SHIM_GFP_H
#include <linux/types.h>
#define GFP_KERNEL ((__force gfp_t)0xcc0u)
#define GFP_ATOMIC ((__force gfp_t)0xa20u)
#define GFP_NOWAIT ((__force gfp_t)0x800u)
#define GFP_NOIO ((__force gfp_t)0xc00u)
#define __GFP_ZERO ((__force gfp_t)0x100u)
#define __GFP_HIGHMEM ((__force gfp_t)0x2u)
#define __GFP_NOWARN ((__force gfp_t)0x2000u)
#define __GFP_DIRECT_RECLAIM ((__force gfp_t)0x400u)
static inline bool gfpflags_allow_blocking(const gfp_t flags)
{
	return !!(flags & __GFP_DIRECT_RECLAIM);
}
extern unsigned long __get_free_page(gfp_t flags);
extern unsigned long get_zeroed_page(gfp_t flags);
extern void free_page(unsigned long address);
#endif
