#ifndef SHIM_BUILD_BUG_H
#define SHIM_BUILD_BUG_H
/* What is asked isn't constant everywhere: a compiler asks it behind its folding. */
#define BUILD_BUG_ON(condition) do { } while (0 && (condition))
#define BUILD_BUG_ON_ZERO(condition) ((int)(sizeof(struct { int held : (condition) ? -1 : 1; }) * 0))
#define BUILD_BUG_ON_MSG(condition, text) BUILD_BUG_ON(condition)
#define BUILD_BUG_ON_NOT_POWER_OF_2(number) BUILD_BUG_ON((number) == 0 || ((number) & ((number) - 1)) != 0)
#define BUILD_BUG() do { } while (0)
#define static_assert(condition, ...) _Static_assert(condition, #condition)
#endif
