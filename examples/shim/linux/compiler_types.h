#ifndef SHIM_COMPILER_TYPES_H
#define SHIM_COMPILER_TYPES_H
/* What a kernel's headers say to its checker. */
#define __user __attribute__((noderef, address_space(__user)))
#define __iomem __attribute__((noderef, address_space(__iomem)))
#define __percpu __attribute__((noderef, address_space(__percpu)))
#define __rcu __attribute__((noderef, address_space(__rcu)))
#define __kernel
#define __force __attribute__((force))
#define __bitwise __attribute__((bitwise))
#define __nocast
#define __safe
#define __private
/* What it says to the compiler, as far as it makes a difference here. */
#define __must_check __attribute__((warn_unused_result))
#define __maybe_unused __attribute__((unused))
#define __always_unused __attribute__((unused))
#define __packed __attribute__((packed))
#define __aligned(bytes) __attribute__((aligned(bytes)))
#define __noreturn __attribute__((noreturn))
#define fallthrough __attribute__((fallthrough))
#define __always_inline inline
#define noinline
#define notrace
#define __pure
#define __attribute_const__
#define __used
#define __weak
#define __cold
#define __visible
#define __ro_after_init
#define __read_mostly
#define ____cacheline_aligned
#define ____cacheline_aligned_in_smp
#define __printf(text, first)
#define __malloc
#define __nonstring
#define __no_kcsan
#define __no_sanitize_address
/* Whoever asks goes by the way that holds of all numbers. */
#define __builtin_constant_p(expression) 0
#define __func__ "function"
#define __FUNCTION__ __func__
#define __init
#define __exit
/* Contexts: what is held where a function is called and where it is left. */
#define __must_hold(lock) __attribute__((context(lock, 1, 1)))
#define __acquires(lock) __attribute__((context(lock, 0, 1)))
#define __releases(lock) __attribute__((context(lock, 1, 0)))
#define __acquire(lock) __context__(lock, 1)
#define __release(lock) __context__(lock, -1)
#define __cond_lock(lock, condition) ((condition) ? ({ __acquire(lock); 1; }) : 0)
#endif
