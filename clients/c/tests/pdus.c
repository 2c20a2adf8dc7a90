/* Tests of the calls on PDUs of NVMe/TCP. */
#include "hosts.h"
#include <nvmetcp.h>

static const nvmesim_pdu_agreed none = {false, false, 0}, digests = {true, true, 1};

/* A common header of a host. */
static nvmesim_pdu_layout layout(const nvmesim_pdu_agreed *agreed, uint8_t type, uint8_t flags, uint8_t hlen, uint8_t pdo,
                                 uint32_t plen) {
    const uint8_t head[8] = {type, flags, hlen, pdo, (uint8_t)plen, (uint8_t)(plen >> 8), (uint8_t)(plen >> 16),
                             (uint8_t)(plen >> 24)};
    return nvmesim_pdu_layout_of(agreed, head);
}

/* Whether a header is refused since this field is wrong. */
static bool refused(nvmesim_pdu_layout it, uint32_t field) {
    return it.what == NVMESIM_BAD_PDU && it.status == 1 && it.field == field && it.length == 0;
}

/* Layouts of PDUs that a host sends, and the first field that is wrong. */
static void layouts(void) {
    nvmesim_pdu_layout it = layout(&none, 4, 0, 72, 72, 584);
    CHECK(it.what == NVMESIM_OK && it.kind == 4 && it.header == 72 && it.length == 584 && !it.is_last);
    CHECK(it.data_offset == 72 && it.data_length == 512 && !it.header_digest && !it.data_digest);
    it = layout(&digests, 6, 7, 24, 28, 544);
    CHECK(it.what == NVMESIM_OK && it.kind == 6 && it.is_last && it.header_digest && it.data_digest);
    CHECK(it.data_offset == 28 && it.data_length == 512 && it.field == 0 && it.status == 0);
    CHECK(layout(&none, 0, 0, 128, 0, 128).what == NVMESIM_OK && layout(&none, 2, 0, 24, 0, 152).data_length == 128);
    CHECK(refused(layout(&none, 5, 0, 24, 0, 24), 0) && refused(layout(&none, 4, 1, 24, 0, 71), 2));
    CHECK(refused(layout(&none, 4, 1, 72, 0, 71), 1) && refused(layout(&none, 4, 0, 72, 70, 584), 3));
    CHECK(refused(layout(&none, 4, 0, 72, 72, 8265), 4) && refused(layout(&digests, 4, 1, 72, 76, 592), 1));
}

/* The fields after the common header. */
static void fields(void) {
    uint8_t request[128] = {0}, header[24] = {0};
    request[10] = 31;
    request[11] = 2;
    nvmesim_pdu_fields it = nvmesim_pdu_ic_request(request);
    CHECK(it.what == NVMESIM_OK && !it.agreed.header_digests && it.agreed.data_digests && it.agreed.alignment == 31);
    request[10] = 32;
    it = nvmesim_pdu_ic_request(request);
    CHECK(it.what == NVMESIM_BAD_PDU && it.status == 1 && it.field == 10 && it.agreed.alignment == 0);
    request[9] = 1;
    it = nvmesim_pdu_ic_request(request);
    CHECK(it.what == NVMESIM_BAD_PDU && it.status == 6 && it.field == 8);
    header[8] = 1, header[11] = 2, header[13] = 3, header[17] = 2;
    const nvmesim_pdu_fields data = nvmesim_pdu_host_data(header, 512);
    CHECK(data.what == NVMESIM_OK && data.cid == 1 && data.tag == 512 && data.offset == 768);
    const nvmesim_pdu_fields other = nvmesim_pdu_host_data(header, 511);
    CHECK(other.what == NVMESIM_BAD_PDU && other.status == 1 && other.field == 16 && other.cid == 0);
    const nvmesim_pdu_fields fatal = nvmesim_pdu_host_termination(header);
    CHECK(fatal.what == NVMESIM_OK && fatal.status == 1 && fatal.field == 0x03000200);
}

/* Headers that a controller sends. */
static void headers(void) {
    uint8_t header[24], response[128];
    const uint8_t posted[16] = {1, 2, 3, 4}, ready[24] = {9, 0, 24, 0, 24, 0, 0, 0, 5, 0, 6, 0, 0, 0, 0, 0, 0, 2};
    nvmesim_pdu_layout it = nvmesim_pdu_response(&digests, posted, header);
    CHECK(header[0] == 5 && header[1] == 1 && header[4] == 28 && memcmp(header + 8, posted, 16) == 0);
    CHECK(it.what == NVMESIM_OK && it.kind == 5 && it.length == 28 && it.header_digest && it.data_length == 0);
    it = nvmesim_pdu_ready(&none, 5, 6, 512, header);
    CHECK(it.length == 24 && memcmp(header, ready, 24) == 0);
    it = nvmesim_pdu_data(&digests, 5, 512, header);
    CHECK(header[0] == 7 && header[1] == 7 && header[3] == 32 && header[17] == 2);
    CHECK(it.data_offset == 32 && it.data_length == 512 && it.data_digest && it.length == 548);
    const nvmesim_pdu_agreed far = {false, false, 32};
    CHECK(nvmesim_pdu_data(&far, 9, 512, header).what == NVMESIM_OUTSIDE && header[8] == 5);
    CHECK(nvmesim_pdu_data(&none, 9, UINT32_MAX, header).what == NVMESIM_OUTSIDE && header[8] == 5);
    it = nvmesim_pdu_termination(1, 2, 200, header);
    CHECK(header[0] == 3 && header[4] == 152 && header[8] == 1 && header[10] == 2 && it.data_length == 128);
    nvmesim_pdu_ic_response(&digests, response);
    CHECK(response[0] == 1 && response[4] == 128 && response[11] == 3 && response[14] == 2 && response[127] == 0);
}

void pdus(void) {
    layouts();
    fields();
    headers();
}
