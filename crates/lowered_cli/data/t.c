#define __acquire(x) __context__(x,1)
#define __release(x) __context__(x,-1)
extern int lock;
void f(int a) { __acquire(lock); if (a) return; __release(lock); }
void g(void) __attribute__((context(lock, 0, 1)));
void g(void) { __acquire(lock); }
