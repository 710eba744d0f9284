#ifndef SHIM_ALIGN_H
#define SHIM_ALIGN_H
#define ALIGN(number, power) (((number) + ((typeof(number))(power) - 1)) & ~((typeof(number))(power) - 1))
#define ALIGN_DOWN(number, power) ((number) & ~((typeof(number))(power) - 1))
#define IS_ALIGNED(number, power) (((number) & ((typeof(number))(power) - 1)) == 0)
#define PTR_ALIGN(pointer, power) ((typeof(pointer))ALIGN((unsigned long)(pointer), (power)))
#endif
