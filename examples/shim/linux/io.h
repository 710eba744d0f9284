#ifndef SHIM_IO_H
#define SHIM_IO_H
#include <linux/compiler.h>
#include <linux/types.h>
extern u8 readb(const volatile void __iomem *address);
extern u16 readw(const volatile void __iomem *address);
extern u32 readl(const volatile void __iomem *address);
extern u64 readq(const volatile void __iomem *address);
extern void writeb(u8 value, volatile void __iomem *address);
extern void writew(u16 value, volatile void __iomem *address);
extern void writel(u32 value, volatile void __iomem *address);
extern void writeq(u64 value, volatile void __iomem *address);
#define readb_relaxed(address) readb(address)
#define readw_relaxed(address) readw(address)
#define readl_relaxed(address) readl(address)
#define writeb_relaxed(value, address) writeb(value, address)
#define writew_relaxed(value, address) writew(value, address)
#define writel_relaxed(value, address) writel(value, address)
#define __raw_readb(address) readb(address)
#define __raw_readw(address) readw(address)
#define __raw_readl(address) readl(address)
#define __raw_readq(address) readq(address)
#define __raw_writeb(value, address) writeb(value, address)
#define __raw_writew(value, address) writew(value, address)
#define __raw_writel(value, address) writel(value, address)
#define __raw_writeq(value, address) writeq(value, address)
extern unsigned int ioread8(const void __iomem *address);
extern unsigned int ioread16(const void __iomem *address);
extern unsigned int ioread32(const void __iomem *address);
extern unsigned int ioread16be(const void __iomem *address);
extern unsigned int ioread32be(const void __iomem *address);
extern void iowrite8(u8 value, void __iomem *address);
extern void iowrite16(u16 value, void __iomem *address);
extern void iowrite32(u32 value, void __iomem *address);
extern void iowrite16be(u16 value, void __iomem *address);
extern void iowrite32be(u32 value, void __iomem *address);
extern void memcpy_fromio(void *to, const volatile void __iomem *from, size_t count);
extern void memcpy_toio(volatile void __iomem *to, const void *from, size_t count);
extern void memset_io(volatile void __iomem *to, int byte, size_t count);
extern u8 inb(unsigned long port);
extern void outb(u8 value, unsigned long port);
extern void __iomem *ioremap(u64 start, size_t size);
extern void iounmap(volatile void __iomem *address);
struct device;
struct resource;
extern void __iomem *devm_ioremap(struct device *device, resource_size_t start, resource_size_t size);
extern void __iomem *devm_ioremap_resource(struct device *device, const struct resource *resource);
#endif
