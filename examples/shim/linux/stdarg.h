#ifndef SHIM_STDARG_H
#define SHIM_STDARG_H
typedef void *va_list;
extern void *va_list_first(const void *last);
extern void *va_list_next(va_list *list, unsigned long size);
#define va_start(list, last) do { (list) = va_list_first(&(last)); } while (0)
#define va_arg(list, type) (*(type *)va_list_next(&(list), sizeof(type)))
#define va_copy(to, from) do { (to) = (from); } while (0)
#define va_end(list) do { (list) = (void *)0; } while (0)
#endif
