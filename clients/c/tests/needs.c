/* Tests of what the library says that a fetched command needs of the medium. */
#include "hosts.h"

/* The I/O commands on the second namespace, by their opcodes, on two blocks from the fourth on. */
void needs(void) {
    static const nvmesim_namespace spaces[] = {{40, 1, true}, {8, 2, true}};
    static const nvmesim_attached attached[] = {{1, 1}, {1, 2}, {2, 1}, {2, 2}};
    static const struct { uint8_t opcode; uint32_t kind; } kinds[] = {
        {0x00, NVMESIM_NEEDS_FLUSH}, {0x01, NVMESIM_NEEDS_WRITE}, {0x02, NVMESIM_NEEDS_READ},
        {0x05, NVMESIM_NEEDS_READ},  {0x08, NVMESIM_NEEDS_ZERO},  {0x7f, NVMESIM_NEEDS_NOTHING}
    };
    enum { KINDS = sizeof kinds / sizeof *kinds };
    nvmesim sim = NVMESIM_NONE;
    uint8_t command[64];
    CHECK(nvmesim_open(&sim, NVMESIM_VERSION, NVMESIM_SCRIPT_BLOCKS, two, 2, spaces, 2, attached, 4, zeros,
                       sizeof zeros) == NVMESIM_OK);
    up(&sim, 1);
    for (uint32_t i = 0; i < KINDS; i++) {
        entry(command, kinds[i].opcode, 2, DATA, 3, 0);
        command[48] = 1;
        CHECK(nvmesim_store(&sim, 1, IO_SQ + 64 * i, command, 64).what == NVMESIM_STORED);
    }
    CHECK(nvmesim_write32(&sim, 1, DOORBELLS + 8, KINDS).what == NVMESIM_WROTE);
    for (uint32_t i = 0; i < KINDS; i++)
        CHECK(nvmesim_fetch(&sim, 1, 1).what == NVMESIM_TOOK);
    for (uint32_t i = 0; i < KINDS; i++) {
        nvmesim_needed needed = nvmesim_needs(&sim, 1, i);
        bool has_blocks = kinds[i].kind != NVMESIM_NEEDS_FLUSH && kinds[i].kind != NVMESIM_NEEDS_NOTHING;
        CHECK(needed.what == NVMESIM_OK && needed.kind == kinds[i].kind);
        CHECK(needed.first == (has_blocks ? 43 : 0) && needed.blocks == (has_blocks ? 2 : 0));
    }
    CHECK(nvmesim_needs(&sim, 1, KINDS).what == NVMESIM_NO_SUCH && nvmesim_needs(&sim, 2, 0).what == NVMESIM_NO_SUCH);
    CHECK(nvmesim_needs(&sim, 3, 0).what == NVMESIM_NO_CONTROLLER);
    CHECK(nvmesim_fetched(&sim, 1, 0).count == KINDS);
    nvmesim_close(&sim);
}
