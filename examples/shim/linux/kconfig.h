#ifndef SHIM_KCONFIG_H
#define SHIM_KCONFIG_H
/* 1 where the option is defined as 1, with -D or by a header before. */
#define SHIM_TAKES_1 0,
#define shim_second(first, second, ...) second
#define shim_option(name) shim_option_of(SHIM_TAKES_##name)
#define shim_option_of(maybe) shim_second(maybe 1, 0)
#define IS_ENABLED(option) shim_option(option)
#define IS_BUILTIN(option) shim_option(option)
#define IS_MODULE(option) 0
#define IS_REACHABLE(option) shim_option(option)
#ifndef CONFIG_64BIT
#define CONFIG_64BIT 1
#endif
#ifndef CONFIG_MMU
#define CONFIG_MMU 1
#endif
#endif
