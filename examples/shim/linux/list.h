#ifndef SHIM_LIST_H
#define SHIM_LIST_H
#include <linux/kernel.h>
#define LIST_HEAD_INIT(name) { &(name), &(name) }
#define LIST_HEAD(name) struct list_head name = LIST_HEAD_INIT(name)
#define list_entry(pointer, type, member) container_of(pointer, type, member)
#define list_first_entry(head, type, member) list_entry((head)->next, type, member)
#define list_last_entry(head, type, member) list_entry((head)->prev, type, member)
#define list_next_entry(entry, member) list_entry((entry)->member.next, typeof(*(entry)), member)
#define list_prev_entry(entry, member) list_entry((entry)->member.prev, typeof(*(entry)), member)
#define list_first_entry_or_null(head, type, member) (list_empty(head) ? NULL : list_first_entry(head, type, member))
#define list_for_each(at, head) for (at = (head)->next; at != (head); at = at->next)
#define list_for_each_prev(at, head) for (at = (head)->prev; at != (head); at = at->prev)
#define list_for_each_safe(at, next_one, head) \
	for (at = (head)->next, next_one = at->next; at != (head); at = next_one, next_one = at->next)
#define list_for_each_entry(entry, head, member) \
	for (entry = list_entry((head)->next, typeof(*entry), member); &entry->member != (head); \
	     entry = list_entry(entry->member.next, typeof(*entry), member))
#define list_for_each_entry_reverse(entry, head, member) \
	for (entry = list_entry((head)->prev, typeof(*entry), member); &entry->member != (head); \
	     entry = list_entry(entry->member.prev, typeof(*entry), member))
#define list_for_each_entry_continue(entry, head, member) \
	for (entry = list_next_entry(entry, member); &entry->member != (head); entry = list_next_entry(entry, member))
#define list_for_each_entry_from(entry, head, member) \
	for (; &entry->member != (head); entry = list_next_entry(entry, member))
#define list_for_each_entry_safe(entry, next_one, head, member) \
	for (entry = list_first_entry(head, typeof(*entry), member), next_one = list_next_entry(entry, member); \
	     &entry->member != (head); entry = next_one, next_one = list_next_entry(next_one, member))
static inline void INIT_LIST_HEAD(struct list_head *head)
{
	head->next = head;
	head->prev = head;
}
static inline void list_put_between(struct list_head *entry, struct list_head *prev, struct list_head *next)
{
	entry->prev = prev;
	entry->next = next;
	prev->next = entry;
	next->prev = entry;
}
static inline void list_add(struct list_head *entry, struct list_head *head)
{
	list_put_between(entry, head, head->next);
}
static inline void list_add_tail(struct list_head *entry, struct list_head *head)
{
	list_put_between(entry, head->prev, head);
}
static inline void __list_del_entry(struct list_head *entry)
{
	entry->next->prev = entry->prev;
	entry->prev->next = entry->next;
}
static inline void list_del(struct list_head *entry)
{
	__list_del_entry(entry);
	entry->next = NULL;
	entry->prev = NULL;
}
static inline void list_del_init(struct list_head *entry)
{
	__list_del_entry(entry);
	INIT_LIST_HEAD(entry);
}
static inline void list_move(struct list_head *entry, struct list_head *head)
{
	__list_del_entry(entry);
	list_add(entry, head);
}
static inline void list_move_tail(struct list_head *entry, struct list_head *head)
{
	__list_del_entry(entry);
	list_add_tail(entry, head);
}
static inline int list_empty(const struct list_head *head)
{
	return head->next == head;
}
static inline int list_is_singular(const struct list_head *head)
{
	return !list_empty(head) && head->next == head->prev;
}
static inline int list_is_last(const struct list_head *entry, const struct list_head *head)
{
	return entry->next == head;
}
extern void list_splice(const struct list_head *list, struct list_head *head);
extern void list_splice_tail(const struct list_head *list, struct list_head *head);
extern void list_splice_init(struct list_head *list, struct list_head *head);
extern void list_splice_tail_init(struct list_head *list, struct list_head *head);
#define HLIST_HEAD_INIT { NULL }
#define hlist_entry(pointer, type, member) container_of(pointer, type, member)
extern void INIT_HLIST_NODE(struct hlist_node *node);
extern int hlist_unhashed(const struct hlist_node *node);
extern int hlist_empty(const struct hlist_head *head);
extern void hlist_add_head(struct hlist_node *node, struct hlist_head *head);
extern void hlist_del(struct hlist_node *node);
extern void hlist_del_init(struct hlist_node *node);
#define hlist_for_each(at, head) for (at = (head)->first; at; at = at->next)
#endif
