typedef int t;
void f(t *a) { *a = 1; }
