#ifndef SHIM_ASM_IO_H
#define SHIM_ASM_IO_H
#include <linux/io.h>
#endif
