#ifndef SHIM_ERR_H
#define SHIM_ERR_H
#include <linux/compiler.h>
#include <linux/types.h>
#define MAX_ERRNO 4095
#define IS_ERR_VALUE(value) unlikely((unsigned long)(void *)(value) >= (unsigned long)-MAX_ERRNO)
static inline void * __must_check ERR_PTR(long error)
{
	return (void *)error;
}
/* A kernel's headers have functions, whose parameter takes a pointer into any space since it says __force. */
#define PTR_ERR(pointer) ((long)(unsigned long)(pointer))
#define IS_ERR(pointer) IS_ERR_VALUE((unsigned long)(pointer))
#define IS_ERR_OR_NULL(pointer) (!(pointer) || IS_ERR(pointer))
#define ERR_CAST(pointer) ((__force void *)(pointer))
#define PTR_ERR_OR_ZERO(pointer) (IS_ERR(pointer) ? (int)PTR_ERR(pointer) : 0)
#endif
