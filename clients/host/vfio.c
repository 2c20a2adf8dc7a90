#include "vfio.h"

#include <errno.h>
#include <fcntl.h>
#include <linux/vfio.h>
#include <stdio.h>
#include <stdlib.h>
#include <string.h>
#include <sys/eventfd.h>
#include <sys/ioctl.h>
#include <sys/mman.h>
#include <unistd.h>

/* Bits of the command register: memory space and bus master; and interrupt disable, since VFIO enables the interrupt pin,
 * which other devices may share, and the port polls. */
enum { VENDOR = 0, COMMAND = 4, MEMORY_AND_MASTER = 6, INTERRUPT_DISABLE = 0x400 };
enum { CLASS_NVME = 0x010802, LONGEST = 256 };

#define DEVICES "/sys/bus/pci/devices/"

/* Keeps the reason; -1. */
static int fails(struct vfio *v, const char *form, const char *address, const char *more)
{
    snprintf(v->fault, sizeof v->fault, form, address, more);
    return -1;
}

/* A file of the device in sysfs, as a number; -1 if there is none. */
static long number_in(const char *address, const char *name)
{
    char path[LONGEST], text[32] = "";
    snprintf(path, sizeof path, DEVICES "%s/%s", address, name);
    int file = open(path, O_RDONLY);
    if (file < 0)
        return -1;
    ssize_t len = read(file, text, sizeof text - 1);
    close(file);
    return len > 0 ? strtol(text, NULL, 0) : -1;
}

/* The last part of the path that a link of the device in sysfs names; whether there is one. */
static bool linked(const char *address, const char *name, char target[LONGEST])
{
    char path[LONGEST], whole[LONGEST];
    snprintf(path, sizeof path, DEVICES "%s/%s", address, name);
    ssize_t len = readlink(path, whole, sizeof whole - 1);
    if (len < 0)
        return false;
    whole[len] = 0;
    const char *slash = strrchr(whole, '/');
    snprintf(target, LONGEST, "%s", slash ? slash + 1 : whole);
    return true;
}

/* Whether the device is an NVMe controller that is bound to vfio-pci; else what to type. */
static int check(struct vfio *v, const char *address, char group[LONGEST])
{
    char driver[LONGEST];
    long class = number_in(address, "class");
    if (class < 0)
        return fails(v, "%s: there is no such PCI device; lspci -D lists them%s", address, "");
    if (class != CLASS_NVME)
        return fails(v, "%s: this PCI device is no NVMe controller; lspci -D -d ::0108 lists them%s", address, "");
    if (!linked(address, "iommu_group", group))
        return fails(v, "%s: the system has no IOMMU for it; boot Linux with intel_iommu=on or amd_iommu=on%s", address,
                     "");
    if (access("/dev/vfio/vfio", F_OK) != 0)
        return fails(v, "%s: VFIO is not loaded; type: modprobe vfio-pci%s", address, "");
    if (!linked(address, "driver", driver) || strcmp(driver, "vfio-pci") != 0)
        return fails(v, "%1$s: it is not bound to vfio-pci; type: echo vfio-pci >" DEVICES "%1$s/driver_override; "
                     "echo %1$s >" DEVICES "%1$s/driver/unbind; echo %1$s >/sys/bus/pci/drivers_probe%2$s", address, "");
    return 0;
}

static int open_group(struct vfio *v, const char *address, const char *group)
{
    char path[LONGEST + 16];
    struct vfio_group_status status = { .argsz = sizeof status };
    snprintf(path, sizeof path, "/dev/vfio/%s", group);
    v->container = open("/dev/vfio/vfio", O_RDWR | O_CLOEXEC);
    v->group = open(path, O_RDWR | O_CLOEXEC);
    if (v->container < 0 || v->group < 0)
        return fails(v, "%s: /dev/vfio: %s", address, strerror(errno));
    if (ioctl(v->group, VFIO_GROUP_GET_STATUS, &status) || !(status.flags & VFIO_GROUP_FLAGS_VIABLE))
        return fails(v, "%s: another device of its IOMMU group has a driver; bind all of them to vfio-pci%s", address, "");
    if (ioctl(v->group, VFIO_GROUP_SET_CONTAINER, &v->container)
        || ioctl(v->container, VFIO_SET_IOMMU, VFIO_TYPE1v2_IOMMU))
        return fails(v, "%s: VFIO: %s", address, strerror(errno));
    v->device = ioctl(v->group, VFIO_GROUP_GET_DEVICE_FD, address);
    if (v->device < 0)
        return fails(v, "%s: VFIO: %s", address, strerror(errno));
    return 0;
}

/* Maps the window and nothing else: the IOMMU stops all other accesses of the device. */
static int map_window(struct vfio *v, const char *address)
{
    v->memory = mmap(NULL, NVMEHOST_WINDOW, PROT_READ | PROT_WRITE, MAP_SHARED | MAP_ANONYMOUS | MAP_POPULATE, -1, 0);
    if (v->memory == MAP_FAILED) {
        v->memory = NULL;
        return fails(v, "%s: memory: %s", address, strerror(errno));
    }
    struct vfio_iommu_type1_dma_map map = {
        .argsz = sizeof map,
        .flags = VFIO_DMA_MAP_FLAG_READ | VFIO_DMA_MAP_FLAG_WRITE,
        .vaddr = (uintptr_t)v->memory,
        .iova = 0,
        .size = NVMEHOST_WINDOW,
    };
    if (ioctl(v->container, VFIO_IOMMU_MAP_DMA, &map))
        return fails(v, "%s: the window can't be mapped: %s; ulimit -l must allow 4,096 KiB", address, strerror(errno));
    return 0;
}

static int map_registers(struct vfio *v, const char *address, struct port *p)
{
    struct vfio_region_info config = { .argsz = sizeof config, .index = VFIO_PCI_CONFIG_REGION_INDEX };
    struct vfio_region_info bar = { .argsz = sizeof bar, .index = VFIO_PCI_BAR0_REGION_INDEX };
    uint16_t command, vendor;
    if (ioctl(v->device, VFIO_DEVICE_GET_REGION_INFO, &config) || ioctl(v->device, VFIO_DEVICE_GET_REGION_INFO, &bar))
        return fails(v, "%s: regions: %s", address, strerror(errno));
    if (pread(v->device, &vendor, 2, (off_t)config.offset + VENDOR) != 2
        || pread(v->device, &command, 2, (off_t)config.offset + COMMAND) != 2)
        return fails(v, "%s: PCI configuration: %s", address, strerror(errno));
    if (vendor == UINT16_MAX)
        return fails(v, "%s: the device was removed, or is without power%s", address, "");
    command |= MEMORY_AND_MASTER | INTERRUPT_DISABLE;
    if (pwrite(v->device, &command, 2, (off_t)config.offset + COMMAND) != 2)
        return fails(v, "%s: PCI configuration: %s", address, strerror(errno));
    p->registers_len = bar.size;
    v->registers = mmap(NULL, bar.size, PROT_READ | PROT_WRITE, MAP_SHARED, v->device, (off_t)bar.offset);
    if (v->registers == MAP_FAILED) {
        v->registers = NULL;
        return fails(v, "%s: BAR 0: %s", address, strerror(errno));
    }
    return 0;
}

/* Has Linux ask for the device before it removes it. A kernel that can't do that only waits. */
static void watch_recalls(struct vfio *v)
{
    union { struct vfio_irq_set set; uint8_t bytes[sizeof(struct vfio_irq_set) + sizeof v->recall]; } asked = {
        .set = { .argsz = sizeof asked, .flags = VFIO_IRQ_SET_DATA_EVENTFD | VFIO_IRQ_SET_ACTION_TRIGGER,
                 .index = VFIO_PCI_REQ_IRQ_INDEX, .count = 1 },
    };
    v->recall = eventfd(0, EFD_NONBLOCK | EFD_CLOEXEC);
    memcpy(asked.bytes + sizeof asked.set, &v->recall, sizeof v->recall);
    if (v->recall >= 0)
        ioctl(v->device, VFIO_DEVICE_SET_IRQS, &asked);
}

bool vfio_is_recalled(struct vfio *v)
{
    uint64_t count;
    return v->recall >= 0 && read(v->recall, &count, sizeof count) == sizeof count;
}

int vfio_open(struct vfio *v, const char *address, struct port *p)
{
    char group[LONGEST];
    memset(v, 0, sizeof *v);
    v->container = v->group = v->device = v->recall = -1;
    if (check(v, address, group) || open_group(v, address, group) || map_window(v, address)
        || map_registers(v, address, p)) {
        vfio_close(v);
        return -1;
    }
    watch_recalls(v);
    p->memory = v->memory;
    p->registers = v->registers;
    return 0;
}

void vfio_close(struct vfio *v)
{
    struct vfio_iommu_type1_dma_unmap unmap = { .argsz = sizeof unmap, .iova = 0, .size = NVMEHOST_WINDOW };
    if (v->container >= 0 && v->memory)
        ioctl(v->container, VFIO_IOMMU_UNMAP_DMA, &unmap);
    if (v->memory)
        munmap(v->memory, NVMEHOST_WINDOW);
    v->memory = NULL;
    if (v->device >= 0)
        close(v->device);
    if (v->group >= 0)
        close(v->group);
    if (v->container >= 0)
        close(v->container);
    if (v->recall >= 0)
        close(v->recall);
    v->container = v->group = v->device = v->recall = -1;
}
