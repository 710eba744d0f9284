#ifndef SHIM_MODULEPARAM_H
#define SHIM_MODULEPARAM_H
#include <linux/types.h>
#define module_param(name, type, rights) extern typeof(name) name
#define module_param_named(name, place, type, rights) extern typeof(place) place
#define MODULE_PARM_DESC(name, text) _Static_assert(sizeof(text) > 1, "description")
#endif
