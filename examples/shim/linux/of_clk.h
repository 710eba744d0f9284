#ifndef SHIM_OF_CLK_H
#define SHIM_OF_CLK_H
#include <linux/of.h>
#endif
