#ifndef SHIM_PRINTK_H
#define SHIM_PRINTK_H
#include <linux/compiler.h>
#ifndef pr_fmt
#define pr_fmt(format) format
#endif
extern int printk(const char *format, ...);
#define KERN_DEBUG ""
#define KERN_INFO ""
#define KERN_NOTICE ""
#define KERN_WARNING ""
#define KERN_ERR ""
#define KERN_CONT ""
#define pr_debug(format, ...) printk(pr_fmt(format), ##__VA_ARGS__)
#define pr_info(format, ...) printk(pr_fmt(format), ##__VA_ARGS__)
#define pr_notice(format, ...) printk(pr_fmt(format), ##__VA_ARGS__)
#define pr_warn(format, ...) printk(pr_fmt(format), ##__VA_ARGS__)
#define pr_warn_once(format, ...) printk(pr_fmt(format), ##__VA_ARGS__)
#define pr_warn_ratelimited(format, ...) printk(pr_fmt(format), ##__VA_ARGS__)
#define pr_err(format, ...) printk(pr_fmt(format), ##__VA_ARGS__)
#define pr_cont(format, ...) printk(format, ##__VA_ARGS__)
extern void dump_stack(void);
#endif
