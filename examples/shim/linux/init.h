#ifndef SHIM_INIT_H
#define SHIM_INIT_H
#include <linux/compiler.h>
#define __exit_p(function) (function)
typedef int (*initcall_t)(void);
#define __initdata
#define __initconst
#define __exitdata
#define core_initcall(function) extern typeof(function) function
#define postcore_initcall(function) extern typeof(function) function
#define arch_initcall(function) extern typeof(function) function
#define subsys_initcall(function) extern typeof(function) function
#define device_initcall(function) extern typeof(function) function
#define late_initcall(function) extern typeof(function) function
#endif
