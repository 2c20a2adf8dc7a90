/* What the tests of the port over a controller in memory share. */
#ifndef NVMEHOST_TEST_TRIAL_H
#define NVMEHOST_TEST_TRIAL_H

#include "../port.h"
#include "device.h"

#include <stdio.h>
#include <stdlib.h>
#include <string.h>

static struct device device;
static struct port p;
static int failed;

#define EXPECT(what) ((what) ? (void)0 : (void)(failed++, printf("%s:%d: not so: %s\n", __FILE__, __LINE__, #what)))
#define EXPECT_IS(what, wanted) expect_is(__FILE__, __LINE__, #what, what, wanted)

static void expect_is(const char *file, int line, const char *text, uint32_t what, uint32_t wanted)
{
    if (what != wanted) {
        failed++;
        printf("%s:%d: %s: %s, not %s\n", file, line, text, port_name(what), port_name(wanted));
    }
}

/* A new controller and a closed driver. */
static void begin(void)
{
    nvmehost_close(&p.host);
    memset((void *)p.memory, 0, NVMEHOST_WINDOW);
    memset((void *)p.registers, 0, DEVICE_REGISTERS);
    device_reset(&device, p.memory, p.registers);
    EXPECT_IS(nvmehost_open(&p.host, 1), NVMEHOST_OK);
}

static uint32_t start(void)
{
    struct nvmehost_outcome outcome;
    device_turn(&device);
    return port_start(&p, &outcome);
}

static struct nvmehost_outcome answer(struct nvmehost_placed placed)
{
    return port_answer(&p, placed, 1000);
}

static uint32_t ask(uint32_t nsid)
{
    return answer(nvmehost_ask(&p.host, nsid)).code;
}

static void open_namespace(void)
{
    EXPECT_IS(start(), NVMEHOST_OK);
    EXPECT_IS(ask(0), NVMEHOST_DONE);
    EXPECT_IS(ask(1), NVMEHOST_DONE);
}

static void trial_begin(void)
{
    p.memory = aligned_alloc(4096, NVMEHOST_WINDOW), p.registers = aligned_alloc(4096, DEVICE_REGISTERS);
    p.registers_len = DEVICE_REGISTERS, p.buffer = malloc(NVMEHOST_BUFFER), p.copy = malloc(NVMEHOST_BUFFER);
    p.turn = device_turn, p.turned = &device;
}

/* The exit status. */
static int trial_end(void)
{
    nvmehost_close(&p.host);
    free((void *)p.memory), free((void *)p.registers), free(p.buffer), free(p.copy);
    return failed != 0;
}

#endif
