// A ring of descriptors with little-endian fields, which a device reads and writes by itself.
#include <asm/byteorder.h>
#include <linux/kernel.h>
#include <linux/list.h>
#include <linux/slab.h>

#define DESCRIPTOR_OWNED cpu_to_le32((u32)BIT(31))
#define DESCRIPTOR_LAST ((__force __le16)0x8000)

struct descriptor {
	__le64 address;
	__le32 status;
	__le16 length;
	__le16 flags;
} __packed __aligned(16);

_Static_assert(sizeof(struct descriptor) == 16, "a descriptor has 16 bytes");

struct buffer {
	struct list_head list;
	dma_addr_t address;
	u16 length;
};

struct ring {
	struct descriptor *descriptors;
	struct list_head waiting;
	u32 head, count;
};

static bool ring_is_owned(const struct descriptor *descriptor)
{
	return (descriptor->status & DESCRIPTOR_OWNED) != 0;
}

static bool ring_put(struct ring *ring, const struct buffer *buffer)
{
	struct descriptor *descriptor = &ring->descriptors[ring->head];

	if (ring_is_owned(descriptor))
		return false;
	descriptor->address = cpu_to_le64(buffer->address);
	descriptor->length = cpu_to_le16(buffer->length);
	descriptor->flags = ring->head + 1 == ring->count ? DESCRIPTOR_LAST : 0;
	descriptor->status |= DESCRIPTOR_OWNED;
	ring->head = (ring->head + 1) % ring->count;
	return true;
}

int ring_fill(struct ring *ring);

int ring_fill(struct ring *ring)
{
	int count = 0;

	while (!list_empty(&ring->waiting)) {
		struct buffer *buffer = list_entry(ring->waiting.next, struct buffer, list);

		if (!ring_put(ring, buffer))
			break;
		list_del(&buffer->list);
		kfree(buffer);
		count++;
	}
	return count;
}

u32 ring_bytes(const struct ring *ring);

u32 ring_bytes(const struct ring *ring)
{
	u32 at, bytes = 0;

	for (at = 0; at < ring->count; at++) {
		const struct descriptor *descriptor = ring->descriptors + at;

		if (!(descriptor->flags & DESCRIPTOR_LAST) && descriptor->status != 0)
			bytes += le16_to_cpu(descriptor->length);
	}
	return bytes;
}
