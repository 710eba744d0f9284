#ifndef SHIM_TIME64_H
#define SHIM_TIME64_H
#include <linux/math64.h>
#include <linux/types.h>
#define MSEC_PER_SEC 1000L
#define USEC_PER_SEC 1000000L
#define USEC_PER_MSEC 1000L
#define NSEC_PER_USEC 1000L
#define NSEC_PER_MSEC 1000000L
#define NSEC_PER_SEC 1000000000L
struct timespec64 {
	time64_t tv_sec;
	long tv_nsec;
};
#endif
