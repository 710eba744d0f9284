extern int *p;
extern int __attribute__((noderef, address_space(__user))) *u;
void f(void) { p = u; }
