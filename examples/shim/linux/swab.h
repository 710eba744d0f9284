#ifndef SHIM_SWAB_H
#define SHIM_SWAB_H
#include <linux/types.h>
static inline u16 swab16(u16 number)
{
	return (u16)(number << 8 | number >> 8);
}
static inline u32 swab32(u32 number)
{
	return number << 24 | (number & 0xff00) << 8 | (number >> 8 & 0xff00) | number >> 24;
}
static inline u64 swab64(u64 number)
{
	return (u64)swab32((u32)number) << 32 | swab32((u32)(number >> 32));
}
static inline unsigned long swab(unsigned long number)
{
	return swab64(number);
}
#define __swab16 swab16
#define __swab32 swab32
#define __swab64 swab64
#endif
