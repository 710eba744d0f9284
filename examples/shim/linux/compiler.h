#ifndef SHIM_COMPILER_H
#define SHIM_COMPILER_H
#include <linux/compiler_types.h>
#include <linux/kconfig.h>
#define likely(condition) __builtin_expect(!!(condition), 1)
#define unlikely(condition) __builtin_expect(!!(condition), 0)
#define barrier() do { } while (0)
#define READ_ONCE(place) (*(const volatile typeof(place) *)&(place))
#define WRITE_ONCE(place, value) do { *(volatile typeof(place) *)&(place) = (value); } while (0)
#define read_word_at_a_time(place) (*(const unsigned long *)(place))
#define mb() barrier()
#define rmb() barrier()
#define wmb() barrier()
#define data_race(expression) (expression)
#define OPTIMIZER_HIDE_VAR(name) barrier()
#define __UNIQUE_ID(prefix) prefix
#define __must_be_array(array) 0
#define is_signed_type(type) ((type)-1 < (type)1)
#define is_unsigned_type(type) (!is_signed_type(type))
#endif
