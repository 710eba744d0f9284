#ifndef SHIM_SIPHASH_H
#define SHIM_SIPHASH_H
#include <linux/kernel.h>
#define SIPHASH_ALIGNMENT 8
#define HSIPHASH_ALIGNMENT 8
typedef struct {
	u64 key[2];
} siphash_key_t;
typedef struct {
	unsigned long key[2];
} hsiphash_key_t;
extern u64 __siphash_aligned(const void *data, size_t count, const siphash_key_t *key);
extern u64 __siphash_unaligned(const void *data, size_t count, const siphash_key_t *key);
extern u64 siphash_1u64(const u64 a, const siphash_key_t *key);
extern u64 siphash_2u64(const u64 a, const u64 b, const siphash_key_t *key);
extern u64 siphash_3u64(const u64 a, const u64 b, const u64 c, const siphash_key_t *key);
extern u64 siphash_4u64(const u64 a, const u64 b, const u64 c, const u64 d, const siphash_key_t *key);
extern u64 siphash_1u32(const u32 a, const siphash_key_t *key);
extern u64 siphash_3u32(const u32 a, const u32 b, const u32 c, const siphash_key_t *key);
extern u32 __hsiphash_aligned(const void *data, size_t count, const hsiphash_key_t *key);
extern u32 __hsiphash_unaligned(const void *data, size_t count, const hsiphash_key_t *key);
extern u32 hsiphash_1u32(const u32 a, const hsiphash_key_t *key);
extern u32 hsiphash_2u32(const u32 a, const u32 b, const hsiphash_key_t *key);
extern u32 hsiphash_3u32(const u32 a, const u32 b, const u32 c, const hsiphash_key_t *key);
extern u32 hsiphash_4u32(const u32 a, const u32 b, const u32 c, const u32 d, const hsiphash_key_t *key);
/* What one round does to four words. */
#define SIPHASH_PERMUTATION(a, b, c, d) ( \
	(a) += (b), (b) = rol64((b), 13), (b) ^= (a), (a) = rol64((a), 32), (c) += (d), (d) = rol64((d), 16), (d) ^= (c), \
	(a) += (d), (d) = rol64((d), 21), (d) ^= (a), (c) += (b), (b) = rol64((b), 17), (b) ^= (c), (c) = rol64((c), 32))
#define SIPHASH_CONST_0 0x736f6d6570736575ULL
#define SIPHASH_CONST_1 0x646f72616e646f6dULL
#define SIPHASH_CONST_2 0x6c7967656e657261ULL
#define SIPHASH_CONST_3 0x7465646279746573ULL
#define HSIPHASH_PERMUTATION(a, b, c, d) SIPHASH_PERMUTATION(a, b, c, d)
#define HSIPHASH_CONST_0 0U
#define HSIPHASH_CONST_1 0U
#define HSIPHASH_CONST_2 0x6c796765U
#define HSIPHASH_CONST_3 0x74656462U
#endif
