#ifndef SHIM_MATH64_H
#define SHIM_MATH64_H
#include <linux/math.h>
#include <linux/types.h>
static inline u64 div_u64(u64 number, u32 by)
{
	return number / by;
}
static inline s64 div_s64(s64 number, s32 by)
{
	return number / by;
}
static inline u64 div64_u64(u64 number, u64 by)
{
	return number / by;
}
static inline s64 div64_s64(s64 number, s64 by)
{
	return number / by;
}
static inline u64 div_u64_rem(u64 number, u32 by, u32 *rest)
{
	*rest = (u32)(number % by);
	return number / by;
}
static inline u64 div64_u64_rem(u64 number, u64 by, u64 *rest)
{
	*rest = number % by;
	return number / by;
}
static inline u64 mul_u32_u32(u32 a, u32 b)
{
	return (u64)a * b;
}
static inline u32 __iter_div_u64_rem(u64 number, u32 by, u64 *rest)
{
	*rest = number % by;
	return (u32)(number / by);
}
extern u64 mul_u64_u64_shr(u64 a, u64 b, unsigned int by);
extern u64 mul_u64_u64_div_u64(u64 a, u64 b, u64 by);
#define div64_long(number, by) div64_s64((number), (by))
#define div64_ul(number, by) div64_u64((number), (by))
#endif
