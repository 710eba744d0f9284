#ifndef SHIM_BITOPS_H
#define SHIM_BITOPS_H
#include <asm/byteorder.h>
#include <linux/bits.h>
#include <linux/compiler.h>
#include <linux/types.h>
#define BITS_TO_LONGS(bits) (((bits) + BITS_PER_LONG - 1) / BITS_PER_LONG)
extern void set_bit(long number, volatile unsigned long *words);
extern void clear_bit(long number, volatile unsigned long *words);
extern void __set_bit(long number, volatile unsigned long *words);
extern void __clear_bit(long number, volatile unsigned long *words);
extern bool test_bit(long number, const volatile unsigned long *words);
extern bool test_and_set_bit(long number, volatile unsigned long *words);
extern bool test_and_clear_bit(long number, volatile unsigned long *words);
extern int ffs(int word);
extern int fls(unsigned int word);
extern int fls64(u64 word);
extern unsigned long __ffs(unsigned long word);
extern unsigned long __fls(unsigned long word);
extern unsigned long __ffs64(u64 word);
extern unsigned long fns(unsigned long word, unsigned int number);
extern unsigned long ffz(unsigned long word);
extern unsigned int fls_long(unsigned long word);
extern unsigned int hweight8(unsigned int word);
extern unsigned int hweight16(unsigned int word);
extern unsigned int hweight32(unsigned int word);
extern unsigned long hweight64(u64 word);
extern unsigned long hweight_long(unsigned long word);
static inline u64 rol64(u64 word, unsigned int by)
{
	return word << (by & 63) | word >> (-by & 63);
}
static inline u64 ror64(u64 word, unsigned int by)
{
	return word >> (by & 63) | word << (-by & 63);
}
static inline u32 rol32(u32 word, unsigned int by)
{
	return word << (by & 31) | word >> (-by & 31);
}
static inline u32 ror32(u32 word, unsigned int by)
{
	return word >> (by & 31) | word << (-by & 31);
}
static inline s32 sign_extend32(u32 word, int bit)
{
	return (s32)(word << (31 - bit)) >> (31 - bit);
}
#endif
