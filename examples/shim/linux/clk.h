#ifndef SHIM_CLK_H
#define SHIM_CLK_H
#include <linux/err.h>
#include <linux/time64.h>
struct clk;
struct device;
extern struct clk *clk_get(struct device *device, const char *name);
extern struct clk *devm_clk_get(struct device *device, const char *name);
extern void clk_put(struct clk *clock);
extern int clk_prepare_enable(struct clk *clock);
extern void clk_disable_unprepare(struct clk *clock);
extern unsigned long clk_get_rate(struct clk *clock);
extern int clk_set_rate(struct clk *clock, unsigned long rate);
#endif
