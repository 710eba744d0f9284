#ifndef SHIM_OF_H
#define SHIM_OF_H
#include <linux/device.h>
struct device_node {
	const char *name, *full_name;
	void *data;
};
struct of_phandle_args {
	struct device_node *np;
	int args_count;
	u32 args[16];
};
extern const struct of_device_id *of_match_device(const struct of_device_id *of, const struct device *device);
extern const void *of_device_get_match_data(const struct device *device);
extern int of_property_read_u32(const struct device_node *node, const char *name, u32 *number);
extern int of_property_read_string(const struct device_node *node, const char *name, const char **text);
extern int of_property_count_strings(const struct device_node *node, const char *name);
extern bool of_property_read_bool(const struct device_node *node, const char *name);
extern const char *of_clk_get_parent_name(const struct device_node *node, int number);
extern bool of_node_check_flag(const struct device_node *node, unsigned long flag);
extern void of_node_clear_flag(struct device_node *node, unsigned long flag);
extern struct device_node *of_node_get(struct device_node *node);
extern void of_node_put(struct device_node *node);
#define OF_POPULATED 3
#define of_match_ptr(table) (table)
#endif
