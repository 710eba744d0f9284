#ifndef SHIM_RCUPDATE_H
#define SHIM_RCUPDATE_H
#include <linux/atomic.h>
#include <linux/kernel.h>
#include <linux/spinlock.h>
extern void rcu_read_lock(void) __acquires(RCU);
extern void rcu_read_unlock(void) __releases(RCU);
extern void synchronize_rcu(void);
extern void call_rcu(struct rcu_head *head, rcu_callback_t callback);
extern void kfree_rcu_block(void *block);
#define kfree_rcu(pointer, member) kfree_rcu_block(pointer)
#define rcu_dereference_raw(pointer) ((typeof(*(pointer)) __force *)READ_ONCE(pointer))
#define rcu_dereference(pointer) rcu_dereference_raw(pointer)
#define rcu_dereference_protected(pointer, condition) rcu_dereference_raw(pointer)
#define rcu_access_pointer(pointer) rcu_dereference_raw(pointer)
#define rcu_assign_pointer(pointer, value) WRITE_ONCE(pointer, (typeof(pointer))(value))
#define RCU_INIT_POINTER(pointer, value) WRITE_ONCE(pointer, (typeof(pointer))(value))
#endif
