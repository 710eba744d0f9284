#ifndef SHIM_UACCESS_H
#define SHIM_UACCESS_H
#include <linux/sched.h>
#include <linux/types.h>
extern unsigned long __must_check copy_from_user(void *to, const void __user *from, unsigned long count);
extern unsigned long __must_check copy_to_user(void __user *to, const void *from, unsigned long count);
extern unsigned long __must_check clear_user(void __user *to, unsigned long count);
extern long strncpy_from_user(char *to, const char __user *from, long count);
extern int access_ok(const void __user *from, unsigned long size);
#endif
