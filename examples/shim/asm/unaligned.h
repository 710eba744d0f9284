#ifndef SHIM_ASM_UNALIGNED_H
#define SHIM_ASM_UNALIGNED_H
#include <asm/byteorder.h>
#define get_unaligned(place) ({ const struct { typeof(*(place)) it; } __packed *unaligned_ = (const void *)(place); unaligned_->it; })
#define put_unaligned(value, place) \
	do { struct { typeof(*(place)) it; } __packed *unaligned_ = (void *)(place); unaligned_->it = (value); } while (0)
static inline u16 get_unaligned_le16(const void *place)
{
	return le16_to_cpu(get_unaligned((const __le16 *)place));
}
static inline u32 get_unaligned_le32(const void *place)
{
	return le32_to_cpu(get_unaligned((const __le32 *)place));
}
static inline u64 get_unaligned_le64(const void *place)
{
	return le64_to_cpu(get_unaligned((const __le64 *)place));
}
static inline u16 get_unaligned_be16(const void *place)
{
	return be16_to_cpu(get_unaligned((const __be16 *)place));
}
static inline u32 get_unaligned_be32(const void *place)
{
	return be32_to_cpu(get_unaligned((const __be32 *)place));
}
static inline void put_unaligned_le16(u16 value, void *place)
{
	put_unaligned(cpu_to_le16(value), (__le16 *)place);
}
static inline void put_unaligned_le32(u32 value, void *place)
{
	put_unaligned(cpu_to_le32(value), (__le32 *)place);
}
static inline void put_unaligned_le64(u64 value, void *place)
{
	put_unaligned(cpu_to_le64(value), (__le64 *)place);
}
#endif
