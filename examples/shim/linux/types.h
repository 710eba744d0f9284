#ifndef SHIM_TYPES_H
#define SHIM_TYPES_H
#include <linux/compiler_types.h>
typedef signed char s8, __s8, int8_t;
typedef short s16, __s16, int16_t;
typedef int s32, __s32, int32_t;
typedef long long s64, __s64, int64_t;
typedef unsigned char u8, __u8, uint8_t, u_char, uchar, unchar;
typedef unsigned short u16, __u16, uint16_t, ushort;
typedef unsigned int u32, __u32, uint32_t, uint, u_int;
typedef unsigned long long u64, __u64, uint64_t;
typedef unsigned long ulong, uintptr_t;
typedef u16 __bitwise __le16;
typedef u32 __bitwise __le32;
typedef u64 __bitwise __le64;
typedef u16 __bitwise __be16;
typedef u32 __bitwise __be32;
typedef u64 __bitwise __be64;
typedef u16 __bitwise __sum16;
typedef u32 __bitwise __wsum;
typedef unsigned int __bitwise gfp_t;
typedef unsigned int __bitwise slab_flags_t;
typedef unsigned int __bitwise fmode_t;
typedef unsigned int __bitwise __poll_t;
typedef unsigned long size_t, __kernel_size_t, __kernel_ulong_t;
typedef long ssize_t, ptrdiff_t;
typedef long long loff_t;
typedef u64 dma_addr_t, phys_addr_t, resource_size_t, sector_t;
typedef u32 dev_t;
typedef unsigned short umode_t;
typedef int pid_t;
typedef long long time64_t, ktime_t;
typedef _Bool bool;
typedef struct {
	int counter;
} atomic_t;
typedef struct {
	s64 counter;
} atomic64_t, atomic_long_t;
#define true 1
#define false 0
#define NULL ((void *)0)
#define DECLARE_BITMAP(name, bits) unsigned long name[((bits) + 63) / 64]
struct list_head {
	struct list_head *next, *prev;
};
struct hlist_node {
	struct hlist_node *next, **pprev;
};
struct hlist_head {
	struct hlist_node *first;
};
struct callback_head {
	struct callback_head *next;
	void (*func)(struct callback_head *head);
};
#define rcu_head callback_head
typedef void (*rcu_callback_t)(struct rcu_head *head);
typedef void (*swap_r_func_t)(void *a, void *b, int size, const void *of);
typedef void (*swap_func_t)(void *a, void *b, int size);
typedef int (*cmp_r_func_t)(const void *a, const void *b, const void *of);
typedef int (*cmp_func_t)(const void *a, const void *b);
#endif
