#ifndef SHIM_LOG2_H
#define SHIM_LOG2_H
#include <linux/types.h>
#include <linux/bitops.h>
#define ilog2(number) (fls64(number) - 1)
static inline bool is_power_of_2(unsigned long number)
{
	return number != 0 && (number & (number - 1)) == 0;
}
static inline unsigned long roundup_pow_of_two(unsigned long number)
{
	return 1UL << fls_long(number - 1);
}
#define __roundup_pow_of_two(number) roundup_pow_of_two(number)
static inline unsigned long rounddown_pow_of_two(unsigned long number)
{
	return 1UL << (fls_long(number) - 1);
}
#define __rounddown_pow_of_two(number) rounddown_pow_of_two(number)
static inline int order_base_2(unsigned long number)
{
	return number > 1 ? fls64(number - 1) : 0;
}
#endif
