#ifndef SHIM_KPROBES_H
#define SHIM_KPROBES_H
#define NOKPROBE_SYMBOL(name) extern typeof(name) name
#define __kprobes
#endif
