#ifndef SHIM_ASM_BARRIER_H
#define SHIM_ASM_BARRIER_H
#include <linux/atomic.h>
#define dma_wmb() barrier()
#define dma_rmb() barrier()
#define virt_mb() barrier()
#define virt_rmb() barrier()
#define virt_wmb() barrier()
#define virt_store_mb(place, value) do { WRITE_ONCE(place, value); } while (0)
#endif
