#ifndef SHIM_ASM_BYTEORDER_H
#define SHIM_ASM_BYTEORDER_H
#include <linux/types.h>
#include <linux/swab.h>
#define __LITTLE_ENDIAN 1234
#define __LITTLE_ENDIAN_BITFIELD
#define CONSTANT_AS(type, value) ((__force type)(value))
static inline u16 le16_to_cpu(__le16 value)
{
	return (__force u16)value;
}
static inline u32 le32_to_cpu(__le32 value)
{
	return (__force u32)value;
}
static inline u64 le64_to_cpu(__le64 value)
{
	return (__force u64)value;
}
static inline __le16 cpu_to_le16(u16 value)
{
	return (__force __le16)value;
}
static inline __le32 cpu_to_le32(u32 value)
{
	return (__force __le32)value;
}
static inline __le64 cpu_to_le64(u64 value)
{
	return (__force __le64)value;
}
static inline u16 be16_to_cpu(__be16 value)
{
	return swab16((__force u16)value);
}
static inline u32 be32_to_cpu(__be32 value)
{
	return swab32((__force u32)value);
}
static inline u64 be64_to_cpu(__be64 value)
{
	return swab64((__force u64)value);
}
static inline __be16 cpu_to_be16(u16 value)
{
	return (__force __be16)swab16(value);
}
static inline __be32 cpu_to_be32(u32 value)
{
	return (__force __be32)swab32(value);
}
static inline __be64 cpu_to_be64(u64 value)
{
	return (__force __be64)swab64(value);
}
#define __cpu_to_le32 cpu_to_le32
#define __le32_to_cpu le32_to_cpu
#define __cpu_to_be32 cpu_to_be32
#define __be32_to_cpu be32_to_cpu
static inline u16 le16_to_cpup(const __le16 *place)
{
	return le16_to_cpu(*place);
}
static inline u32 le32_to_cpup(const __le32 *place)
{
	return le32_to_cpu(*place);
}
static inline u64 le64_to_cpup(const __le64 *place)
{
	return le64_to_cpu(*place);
}
static inline u32 be32_to_cpup(const __be32 *place)
{
	return be32_to_cpu(*place);
}
#endif
