/* Replaces vfio.c in tests of the program: the controllers of modelled.py, another process. The folder MODELLED has a
 * folder for each address, with the window and the registers of its controller as files. */
#include "../vfio.h"

#include <errno.h>
#include <fcntl.h>
#include <stdio.h>
#include <stdlib.h>
#include <string.h>
#include <sys/file.h>
#include <sys/mman.h>
#include <time.h>
#include <unistd.h>

enum { REGISTERS = 0x2000, REST_NS = 20000 };

/* Lets the other process run. */
static void rest(void *unused)
{
    (void)unused;
    nanosleep(&(struct timespec){ .tv_nsec = REST_NS }, NULL);
}

/* Maps a file of the controller, which `file` then is; NULL if there is none. */
static void *map(const char *address, const char *name, size_t len, int *file)
{
    char path[4096];
    const char *folder = getenv("MODELLED");
    snprintf(path, sizeof path, "%s/%s/%s", folder ? folder : ".", address, name);
    *file = open(path, O_RDWR | O_CLOEXEC);
    void *at = *file < 0 ? MAP_FAILED : mmap(NULL, len, PROT_READ | PROT_WRITE, MAP_SHARED, *file, 0);
    return at == MAP_FAILED ? NULL : at;
}

int vfio_open(struct vfio *v, const char *address, struct port *p)
{
    memset(v, 0, sizeof *v);
    v->memory = map(address, "memory", NVMEHOST_WINDOW, &v->container);
    v->registers = map(address, "registers", REGISTERS, &v->device);
    if (!v->memory || !v->registers) {
        snprintf(v->fault, sizeof v->fault, "%s: there is no such PCI device; lspci -D lists them", address);
        return -1;
    }
    if (flock(v->device, LOCK_EX | LOCK_NB)) {
        snprintf(v->fault, sizeof v->fault, "%s: /dev/vfio: %s", address, strerror(EBUSY));
        return -1;
    }
    p->memory = v->memory, p->registers = v->registers, p->registers_len = REGISTERS;
    p->turn = rest;
    return 0;
}

bool vfio_is_recalled(struct vfio *v)
{
    (void)v;
    return false;
}

void vfio_close(struct vfio *v)
{
    if (v->memory)
        munmap(v->memory, NVMEHOST_WINDOW);
    if (v->registers)
        munmap(v->registers, REGISTERS);
    v->memory = v->registers = NULL;
    close(v->container);
    close(v->device);
}
