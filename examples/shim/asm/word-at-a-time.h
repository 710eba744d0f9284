#ifndef SHIM_ASM_WORD_AT_A_TIME_H
#define SHIM_ASM_WORD_AT_A_TIME_H
#include <linux/kernel.h>
struct word_at_a_time {
	unsigned long one_bits, high_bits;
};
#define WORD_AT_A_TIME_CONSTANTS { REPEAT_BYTE(0x01), REPEAT_BYTE(0x80) }
extern unsigned long has_zero(unsigned long word, unsigned long *bits, const struct word_at_a_time *of);
extern unsigned long prep_zero_mask(unsigned long word, unsigned long bits, const struct word_at_a_time *of);
extern unsigned long create_zero_mask(unsigned long bits);
extern unsigned long find_zero(unsigned long mask);
extern unsigned long zero_bytemask(unsigned long mask);
extern unsigned long load_unaligned_zeropad(const void *place);
#endif
