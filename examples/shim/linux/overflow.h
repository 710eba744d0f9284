#ifndef SHIM_OVERFLOW_H
#define SHIM_OVERFLOW_H
#include <linux/types.h>
/* Each says whether the number in the place isn't the true one. */
#define check_add_overflow(a, b, to) ({ *(to) = (a) + (b); *(to) < (a); })
#define check_sub_overflow(a, b, to) ({ *(to) = (a) - (b); *(to) > (a); })
#define check_mul_overflow(a, b, to) ({ *(to) = (a) * (b); (a) != 0 && *(to) / (a) != (b); })
#define array_size(count, size) ((size_t)(count) * (size))
#define size_mul(count, size) ((size_t)(count) * (size))
#define size_add(a, b) ((size_t)(a) + (b))
#define struct_size(pointer, member, count) (sizeof(*(pointer)) + sizeof(*(pointer)->member) * (count))
#define flex_array_size(pointer, member, count) (sizeof(*(pointer)->member) * (count))
#endif
