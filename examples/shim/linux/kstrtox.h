#ifndef SHIM_KSTRTOX_H
#define SHIM_KSTRTOX_H
#include <linux/types.h>
extern int __must_check kstrtoul(const char *text, unsigned int base, unsigned long *number);
extern int __must_check kstrtol(const char *text, unsigned int base, long *number);
extern int __must_check kstrtoull(const char *text, unsigned int base, unsigned long long *number);
extern int __must_check kstrtoll(const char *text, unsigned int base, long long *number);
extern int __must_check kstrtouint(const char *text, unsigned int base, unsigned int *number);
extern int __must_check kstrtoint(const char *text, unsigned int base, int *number);
extern int __must_check kstrtou8(const char *text, unsigned int base, u8 *number);
extern int __must_check kstrtou16(const char *text, unsigned int base, u16 *number);
extern int __must_check kstrtobool(const char *text, bool *truth);
extern unsigned long simple_strtoul(const char *text, char **end, unsigned int base);
extern long simple_strtol(const char *text, char **end, unsigned int base);
extern unsigned long long simple_strtoull(const char *text, char **end, unsigned int base);
#endif
