#ifndef SHIM_BUG_H
#define SHIM_BUG_H
#include <linux/build_bug.h>
#include <linux/compiler.h>
#include <linux/export.h>
#include <linux/printk.h>
extern void bug_stop(void) __noreturn;
extern void bug_report(void);
#define BUG() bug_stop()
#define BUG_ON(condition) do { if (unlikely(condition)) bug_stop(); } while (0)
#define WARN_ON(condition) ({ int warn_on_ = !!(condition); if (unlikely(warn_on_)) bug_report(); unlikely(warn_on_); })
#define WARN_ON_ONCE(condition) WARN_ON(condition)
#define WARN(condition, ...) WARN_ON(condition)
#define WARN_ONCE(condition, ...) WARN_ON(condition)
#endif
