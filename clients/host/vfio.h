/* An NVMe controller through Linux VFIO: its registers, and one window of memory that it reaches, at address 0. */
#ifndef NVMEHOST_VFIO_H
#define NVMEHOST_VFIO_H

#include "port.h"

struct vfio {
    int container, group, device, recall;
    void *memory, *registers;
    char fault[400]; /* why it was not opened, and what to type */
};

/* Opens the device at a PCI address such as 0000:00:04.0, and fills in the port; 0, or -1 with `fault`. If the device
 * then loses its power, an access to its registers is a SIGBUS. */
int vfio_open(struct vfio *v, const char *address, struct port *p);
/* Whether Linux wants to remove the device, and waits until it is closed. */
bool vfio_is_recalled(struct vfio *v);
/* Unmaps the window, so that the device can't reach it, and closes the device, which resets it. */
void vfio_close(struct vfio *v);

#endif
