/* Two hosts, and the configuration that they share. */
#include "hosts.h"

int failures;

const nvmesim_controller two[2] = {{0xa1, 0, 1, true}, {0xb2, 0xc3, 2, false}};
const nvmesim_namespace shared[1] = {{64, 1, true}};
const nvmesim_attached both[2] = {{1, 1}, {1, 2}};
const uint8_t zeros[64 * 512];

uint32_t open_two(nvmesim *sim) {
    return nvmesim_open(sim, NVMESIM_VERSION, NVMESIM_SCRIPT_BLOCKS, two, 2, shared, 1, both, 2, zeros, sizeof zeros);
}

void entry(uint8_t bytes[64], uint8_t opcode, uint32_t nsid, uint64_t prp1, uint32_t dw10, uint32_t dw11) {
    memset(bytes, 0, 64);
    bytes[0] = opcode;
    memcpy(bytes + 4, &nsid, 4);
    memcpy(bytes + 24, &prp1, 8);
    memcpy(bytes + 40, &dw10, 4);
    memcpy(bytes + 44, &dw11, 4);
}

nvmesim_answer by_calls(nvmesim *sim, uint16_t cntlid, uint16_t qid, uint32_t at, const uint8_t bytes[64]) {
    CHECK(nvmesim_store(sim, cntlid, (qid ? IO_SQ : 0) + 64 * at, bytes, 64).what == NVMESIM_STORED);
    CHECK(nvmesim_write32(sim, cntlid, DOORBELLS + 8 * qid, at + 1).what == NVMESIM_WROTE);
    CHECK(nvmesim_fetch(sim, cntlid, qid).what == NVMESIM_TOOK);
    return nvmesim_execute(sim, cntlid, 0);
}

void up(nvmesim *sim, uint16_t cntlid) {
    uint8_t bytes[64];
    nvmesim_write32(sim, cntlid, AQA, (ENTRIES - 1) << 16 | (ENTRIES - 1));
    nvmesim_write32(sim, cntlid, ACQ, ADMIN_CQ);
    nvmesim_write32(sim, cntlid, CC, 4 << 20 | 6 << 16 | 1);
    entry(bytes, 0x05, 0, IO_CQ, (ENTRIES - 1) << 16 | 1, 1);
    nvmesim_answer answer = by_calls(sim, cntlid, 0, 0, bytes);
    CHECK(answer.what == NVMESIM_POSTED && answer.sct == 0 && answer.sc == 0);
    entry(bytes, 0x01, 0, IO_SQ, (ENTRIES - 1) << 16 | 1, 1 << 16 | 1);
    answer = by_calls(sim, cntlid, 0, 1, bytes);
    CHECK(answer.what == NVMESIM_POSTED && answer.sct == 0 && answer.sc == 0);
}
