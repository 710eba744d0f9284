#ifndef SHIM_KERNEL_H
#define SHIM_KERNEL_H
#include <linux/stdarg.h>
#include <linux/align.h>
#include <linux/bitops.h>
#include <linux/bug.h>
#include <linux/build_bug.h>
#include <linux/container_of.h>
#include <linux/errno.h>
#include <linux/kstrtox.h>
#include <linux/limits.h>
#include <linux/log2.h>
#include <linux/math.h>
#include <linux/minmax.h>
#include <linux/printk.h>
#include <linux/stddef.h>
#include <linux/types.h>
#define MIN(a, b) ((a) < (b) ? (a) : (b))
#define MAX(a, b) ((a) > (b) ? (a) : (b))
#define ARRAY_SIZE(array) (sizeof(array) / sizeof((array)[0]))
#define PTR_IF(condition, pointer) ((condition) ? (pointer) : NULL)
#define upper_32_bits(number) ((u32)(((number) >> 16) >> 16))
#define lower_32_bits(number) ((u32)((number) & 0xffffffff))
#define mult_frac(number, by, of) ({ typeof(number) whole_ = (number) / (of); typeof(number) rest_ = (number) % (of); \
	whole_ * (by) + rest_ * (by) / (of); })
#define REPEAT_BYTE(byte) ((~0ul / 0xff) * (byte))
#define might_sleep() do { } while (0)
#define might_sleep_if(condition) do { } while (0)
#define cant_sleep() do { } while (0)
extern int sprintf(char *text, const char *format, ...);
extern int snprintf(char *text, size_t size, const char *format, ...);
extern int scnprintf(char *text, size_t size, const char *format, ...);
extern int vsnprintf(char *text, size_t size, const char *format, va_list list);
extern int vscnprintf(char *text, size_t size, const char *format, va_list list);
extern char *kasprintf(gfp_t flags, const char *format, ...);
extern int sscanf(const char *text, const char *format, ...);
extern int get_option(char **text, int *number);
extern char *get_options(const char *text, int count, int *numbers);
extern unsigned long long memparse(const char *text, char **end);
extern const char hex_asc[], hex_asc_upper[];
#define hex_asc_lo(byte) hex_asc[(byte) & 15]
#define hex_asc_hi(byte) hex_asc[((byte) & 240) >> 4]
extern int hex_to_bin(unsigned char digit);
extern int __must_check hex2bin(u8 *to, const char *from, size_t count);
extern char *bin2hex(char *to, const void *from, size_t count);
static inline char *hex_byte_pack(char *text, u8 byte)
{
	*text++ = hex_asc_hi(byte);
	*text++ = hex_asc_lo(byte);
	return text;
}
static inline char *pack_hex_byte(char *text, u8 byte)
{
	return hex_byte_pack(text, byte);
}
#endif
