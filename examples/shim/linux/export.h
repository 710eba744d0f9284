#ifndef SHIM_EXPORT_H
#define SHIM_EXPORT_H
/* Whoever exports a name has to have declared it. */
#define EXPORT_SYMBOL(name) extern typeof(name) name
#define EXPORT_SYMBOL_GPL(name) EXPORT_SYMBOL(name)
#define EXPORT_SYMBOL_NS_GPL(name, space) EXPORT_SYMBOL(name)
struct module;
#define THIS_MODULE ((struct module *)0)
#endif
