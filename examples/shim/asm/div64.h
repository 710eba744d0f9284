#ifndef SHIM_ASM_DIV64_H
#define SHIM_ASM_DIV64_H
#include <linux/types.h>
/* The quotient goes into the place, the rest is the value. */
#define do_div(place, by) ({ u32 rest_ = (u32)((place) % (u32)(by)); (place) /= (u32)(by); rest_; })
#endif
