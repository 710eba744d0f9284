#ifndef SHIM_STDDEF_H
#define SHIM_STDDEF_H
#include <linux/types.h>
#define offsetof(type, member) __builtin_offsetof(type, member)
#define sizeof_field(type, member) sizeof(((type *)0)->member)
#define offsetofend(type, member) (offsetof(type, member) + sizeof_field(type, member))
#endif
