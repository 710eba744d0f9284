#ifndef SHIM_FS_H
#define SHIM_FS_H
#include <linux/module.h>
struct inode {
	void *i_private;
};
struct file {
	void *private_data;
	unsigned int f_flags;
};
struct file_operations {
	struct module *owner;
	ssize_t (*read)(struct file *, char __user *, size_t, loff_t *);
	ssize_t (*write)(struct file *, const char __user *, size_t, loff_t *);
	long (*unlocked_ioctl)(struct file *, unsigned int, unsigned long);
	int (*open)(struct inode *, struct file *);
	int (*release)(struct inode *, struct file *);
};
extern int register_chrdev(unsigned int major, const char *name, const struct file_operations *operations);
extern void unregister_chrdev(unsigned int major, const char *name);
#endif
