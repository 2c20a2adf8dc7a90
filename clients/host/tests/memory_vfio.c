/* Replaces vfio.c in tests of the program: the controller of device.c. Its blocks and its reservation stay in files of
 * the current folder. Variables of the environment make it differ:
 * EVENT: there is an event, with this double word 0; CONFIGURED: only events of its configuration are reported; HOLD: I/O commands with this opcode are held back, until the
 * controller is asked to abort one; HOLD_LATE: that Abort aborts none, and what is held back is executed then;
 * HOLD_FOREVER: that Abort aborts none; LOST: an access to its registers is a SIGBUS, as VFIO has it for a device without
 * power; RECALLED: Linux wants to remove it. */
#include "../vfio.h"
#include "device.h"

#include <stdio.h>
#include <stdlib.h>
#include <string.h>
#include <sys/mman.h>

static struct device device;

/* Reads what is kept in a file, if it is there. */
static void restore(const char *name, void *bytes, size_t len)
{
    FILE *file = fopen(name, "rb");
    if (file && fread(bytes, 1, len, file) != len)
        abort();
    if (file)
        fclose(file);
}

static void keep(const char *name, const void *bytes, size_t len)
{
    FILE *file = fopen(name, "wb");
    if (!file || fwrite(bytes, 1, len, file) != len || fclose(file))
        abort();
}

static void read_environment(void)
{
    const char *event = getenv("EVENT"), *hold = getenv("HOLD");
    if (event)
        device_raise(&device, (uint32_t)strtoul(event, NULL, 0));
    if (hold)
        device.is_holding = true, device.held_opcode = (uint8_t)strtoul(hold, NULL, 0);
    device.is_configured = getenv("CONFIGURED");
    device.aborts_nothing = getenv("HOLD_LATE") || getenv("HOLD_FOREVER");
    device.aborting_releases = getenv("HOLD_LATE");
}

/* Registers that are gone: a mapping of an empty file. */
static volatile uint8_t *lost_registers(void)
{
    void *at = mmap(NULL, DEVICE_REGISTERS, PROT_READ | PROT_WRITE, MAP_SHARED, memfd_create("registers", 0), 0);
    if (at == MAP_FAILED)
        abort();
    return at;
}

int vfio_open(struct vfio *v, const char *address, struct port *p)
{
    (void)address;
    v->memory = aligned_alloc(4096, NVMEHOST_WINDOW), v->registers = aligned_alloc(4096, DEVICE_REGISTERS);
    if (!v->memory || !v->registers)
        abort();
    memset(v->memory, 0, NVMEHOST_WINDOW), memset(v->registers, 0, DEVICE_REGISTERS);
    device_reset(&device, v->memory, v->registers);
    restore("blocks", device.blocks, sizeof device.blocks);
    restore("reservation", &device.reservation, sizeof device.reservation);
    read_environment();
    p->memory = v->memory, p->registers = v->registers, p->registers_len = DEVICE_REGISTERS;
    p->turn = device_turn, p->turned = &device;
    device_turn(&device);
    if (getenv("LOST"))
        p->registers = lost_registers();
    return 0;
}

bool vfio_is_recalled(struct vfio *v)
{
    (void)v;
    return getenv("RECALLED") != NULL;
}

void vfio_close(struct vfio *v)
{
    if (v->memory) {
        keep("blocks", device.blocks, sizeof device.blocks);
        keep("reservation", &device.reservation, sizeof device.reservation);
    }
    if (device.reported != 0)
        fputs("the log page of an event was not read\n", stderr);
    free(v->memory), free(v->registers);
}
