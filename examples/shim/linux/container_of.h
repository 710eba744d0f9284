#ifndef SHIM_CONTAINER_OF_H
#define SHIM_CONTAINER_OF_H
#define container_of(pointer, type, member) ((type *)((char *)(pointer) - __builtin_offsetof(type, member)))
#endif
