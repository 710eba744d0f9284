#ifndef SHIM_DMAENGINE_H
#define SHIM_DMAENGINE_H
#include <linux/device.h>
#include <linux/interrupt.h>
#include <linux/kernel.h>
typedef s32 dma_cookie_t;
#define DMA_MIN_COOKIE 1
enum dma_status {
	DMA_COMPLETE,
	DMA_IN_PROGRESS,
	DMA_PAUSED,
	DMA_ERROR,
};
enum dma_ctrl_flags {
	DMA_PREP_INTERRUPT = 1,
	DMA_CTRL_ACK = 2,
	DMA_CTRL_REUSE = 64,
};
enum dmaengine_tx_result {
	DMA_TRANS_NOERROR,
	DMA_TRANS_READ_FAILED,
	DMA_TRANS_WRITE_FAILED,
	DMA_TRANS_ABORTED,
};
struct dmaengine_result {
	enum dmaengine_tx_result result;
	u32 residue;
};
struct dma_device;
struct dma_chan {
	struct dma_device *device;
	dma_cookie_t cookie, completed_cookie;
	struct list_head device_node;
};
typedef void (*dma_async_tx_callback)(void *of);
typedef void (*dma_async_tx_callback_result)(void *of, const struct dmaengine_result *result);
struct dma_async_tx_descriptor {
	dma_cookie_t cookie;
	enum dma_ctrl_flags flags;
	dma_addr_t phys;
	struct dma_chan *chan;
	dma_cookie_t (*tx_submit)(struct dma_async_tx_descriptor *one);
	int (*desc_free)(struct dma_async_tx_descriptor *one);
	dma_async_tx_callback callback;
	dma_async_tx_callback_result callback_result;
	void *callback_param;
};
struct dma_tx_state {
	dma_cookie_t last, used;
	u32 residue, in_flight_bytes;
};
struct dma_device {
	struct list_head channels;
	struct device *dev;
};
static inline enum dma_status dma_async_is_complete(dma_cookie_t cookie, dma_cookie_t completed, dma_cookie_t used)
{
	return cookie <= completed || cookie > used ? DMA_COMPLETE : DMA_IN_PROGRESS;
}
extern void dma_async_tx_descriptor_init(struct dma_async_tx_descriptor *one, struct dma_chan *channel);
static inline void dmaengine_desc_clear_reuse(struct dma_async_tx_descriptor *one)
{
	one->flags &= ~DMA_CTRL_REUSE;
}
static inline bool dmaengine_desc_test_reuse(struct dma_async_tx_descriptor *one)
{
	return (one->flags & DMA_CTRL_REUSE) == DMA_CTRL_REUSE;
}
#endif
