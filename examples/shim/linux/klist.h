#ifndef SHIM_KLIST_H
#define SHIM_KLIST_H
#include <linux/kref.h>
#include <linux/list.h>
#include <linux/spinlock.h>
struct klist_node;
struct klist {
	spinlock_t k_lock;
	struct list_head k_list;
	void (*get)(struct klist_node *node);
	void (*put)(struct klist_node *node);
};
struct klist_node {
	void *n_klist;
	struct list_head n_node;
	struct kref n_ref;
};
struct klist_iter {
	struct klist *i_klist;
	struct klist_node *i_cur;
};
extern void klist_init(struct klist *list, void (*get)(struct klist_node *), void (*put)(struct klist_node *));
extern void klist_add_tail(struct klist_node *node, struct klist *list);
extern void klist_add_head(struct klist_node *node, struct klist *list);
extern void klist_add_behind(struct klist_node *node, struct klist_node *before);
extern void klist_add_before(struct klist_node *node, struct klist_node *behind);
extern void klist_del(struct klist_node *node);
extern void klist_remove(struct klist_node *node);
extern int klist_node_attached(struct klist_node *node);
extern void klist_iter_init(struct klist *list, struct klist_iter *at);
extern void klist_iter_init_node(struct klist *list, struct klist_iter *at, struct klist_node *node);
extern void klist_iter_exit(struct klist_iter *at);
extern struct klist_node *klist_prev(struct klist_iter *at);
extern struct klist_node *klist_next(struct klist_iter *at);
#endif
