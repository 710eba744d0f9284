#ifndef SHIM_KTIME_H
#define SHIM_KTIME_H
#include <linux/jiffies.h>
extern ktime_t ktime_get(void);
extern ktime_t ktime_get_real(void);
extern time64_t ktime_get_real_seconds(void);
extern u64 ktime_get_ns(void);
static inline ktime_t ktime_set(s64 seconds, unsigned long nanoseconds)
{
	return seconds * NSEC_PER_SEC + (s64)nanoseconds;
}
#define ktime_add(a, b) ((a) + (b))
#define ktime_sub(a, b) ((a) - (b))
#define ktime_add_us(a, microseconds) ((a) + (microseconds) * 1000LL)
#define ktime_to_ns(a) (a)
#define ktime_to_us(a) ((a) / 1000)
#define ktime_to_ms(a) ((a) / 1000000)
#define ktime_us_delta(a, b) (((a) - (b)) / 1000)
#define ktime_before(a, b) ((a) < (b))
#define ktime_after(a, b) ((a) > (b))
#define ktime_compare(a, b) ((a) < (b) ? -1 : (a) > (b))
#endif
