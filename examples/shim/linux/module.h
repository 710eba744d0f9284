#ifndef SHIM_MODULE_H
#define SHIM_MODULE_H
#include <linux/export.h>
#include <linux/init.h>
#include <linux/kernel.h>
#include <linux/list.h>
#include <linux/moduleparam.h>
#include <linux/string.h>
#ifndef KBUILD_MODNAME
#define KBUILD_MODNAME "module"
#endif
#define MODULE_NAME_LEN 56
#define MODULE_LICENSE(text) _Static_assert(sizeof(text) > 1, "license")
#define MODULE_AUTHOR(text) _Static_assert(sizeof(text) > 1, "author")
#define MODULE_DESCRIPTION(text) _Static_assert(sizeof(text) > 1, "description")
#define MODULE_ALIAS(text) _Static_assert(sizeof(text) > 1, "alias")
#define MODULE_VERSION(text) _Static_assert(sizeof(text) > 1, "version")
#define MODULE_IMPORT_NS(space) _Static_assert(1, #space)
#define MODULE_DEVICE_TABLE(kind, table) extern typeof(table) table
#define module_init(function) extern int (*const module_init_)(void)
#define module_exit(function) extern void (*const module_exit_)(void)
extern bool try_module_get(struct module *module);
extern void module_put(struct module *module);
#endif
