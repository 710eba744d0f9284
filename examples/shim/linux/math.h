#ifndef SHIM_MATH_H
#define SHIM_MATH_H
#include <asm/div64.h>
#include <linux/types.h>
#define round_up(number, power) ((((number) - 1) | ((typeof(number))(power) - 1)) + 1)
#define round_down(number, power) ((number) & ~((typeof(number))(power) - 1))
#define DIV_ROUND_UP(number, by) (((number) + (by) - 1) / (by))
#define DIV_ROUND_UP_ULL(number, by) DIV_ROUND_UP((unsigned long long)(number), by)
#define DIV_ROUND_DOWN_ULL(number, by) ((unsigned long long)(number) / (by))
#define DIV_ROUND_CLOSEST(number, by) (((number) + (by) / 2) / (by))
#define DIV_ROUND_CLOSEST_ULL(number, by) DIV_ROUND_CLOSEST((unsigned long long)(number), by)
#define roundup(number, to) ((((number) + (to) - 1) / (to)) * (to))
#define rounddown(number, to) ((number) - (number) % (to))
#define abs(number) ({ typeof(number) abs_ = (number); abs_ < 0 ? -abs_ : abs_; })
extern unsigned long int_sqrt(unsigned long number);
extern u32 int_sqrt64(u64 number);
#endif
