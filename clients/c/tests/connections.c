/* Tests of the calls on connections, and on which connection is a queue of which controller. */
#include "hosts.h"
#include <nvmetcp.h>

static const uint8_t request[128] = {0, 0, 128, 0, 128, 0, 0, 0, 0, 0, 3, 3};
static const nvmesim_connection nothing;

/* A connection whose ICReq was granted: header and data digests, HPDA 3. */
static nvmesim_connection opened(void) {
    nvmesim_connection it = nothing;
    CHECK(nvmesim_connection_wanted(&it) == 8 && nvmesim_connection_layout(&it).what == NVMESIM_NO_PDU);
    CHECK(nvmesim_connection_take(&it, request, 7).count == 7 && nvmesim_connection_wanted(&it) == 1);
    CHECK(nvmesim_connection_judge(&it, true, true).layout.what == NVMESIM_NO_PDU && it.count == 7);
    CHECK(nvmesim_connection_take(&it, request + 7, 121).count == 121 && !it.is_open);
    CHECK(it.stage == NVMESIM_STAGE_WHOLE);
    CHECK(nvmesim_connection_take(&it, request, 1).count == 0 && nvmesim_connection_layout(&it).length == 128);
    CHECK(nvmesim_connection_refuse(&it, 4, 0).layout.what == NVMESIM_NO_PDU && it.stage == NVMESIM_STAGE_WHOLE);
    const nvmesim_verdict verdict = nvmesim_connection_judge(&it, false, false);
    CHECK(verdict.layout.what == NVMESIM_OK && verdict.layout.kind == 0 && verdict.is_sound && it.is_open);
    CHECK(it.stage == NVMESIM_STAGE_COMPLETE && it.agreed.alignment == 3 && it.agreed.header_digests);
    CHECK(memcmp(it.kept, request, 128) == 0);
    return it;
}

/* An H2CData with four bytes of data between two digests, in two pieces. */
static void data(void) {
    static const uint8_t pdu[37] = {6, 7, 24, 28, 36, [8] = 1, [10] = 2, [16] = 4, [24] = 90, [28] = 11, 12, 13, 14};
    nvmesim_connection it = opened();
    nvmesim_taken taken = nvmesim_connection_take(&it, pdu, 30);
    CHECK(taken.what == NVMESIM_OK && taken.count == 30 && taken.data_begin == 28 && taken.data_end == 30);
    CHECK(taken.data_offset == 0 && nvmesim_connection_wanted(&it) == 6);
    taken = nvmesim_connection_take(&it, pdu + 30, 7);
    CHECK(taken.count == 6 && taken.data_begin == 0 && taken.data_end == 2 && taken.data_offset == 2);
    nvmesim_connection other = it;
    nvmesim_verdict verdict = nvmesim_connection_judge(&it, true, false);
    CHECK(verdict.layout.what == NVMESIM_OK && verdict.layout.is_last && !verdict.is_sound);
    verdict = nvmesim_connection_judge(&other, false, true);
    CHECK(verdict.layout.what == NVMESIM_BAD_PDU && verdict.layout.status == 3 && !verdict.is_sound);
    CHECK(other.stage == NVMESIM_STAGE_ENDED && nvmesim_connection_take(&other, pdu, 37).count == 0);
    verdict = nvmesim_connection_refuse(&it, 4, 12);
    CHECK(verdict.layout.what == NVMESIM_BAD_PDU && verdict.layout.status == 4 && verdict.layout.field == 12);
    CHECK(it.stage == NVMESIM_STAGE_ENDED && nvmesim_connection_wanted(&it) == 0);
}

/* A rule that is broken ends a connection. Whatever bytes a struct has, each call returns. */
static void faults(void) {
    static const uint8_t pdu[9] = {4, 1, 71, 0, 72, 0, 0, 0, 1};
    nvmesim_connection it = opened();
    const nvmesim_taken taken = nvmesim_connection_take(&it, pdu, 9);
    CHECK(taken.what == NVMESIM_BAD_PDU && taken.status == 1 && taken.field == 2 && taken.count == 8);
    CHECK(taken.data_begin == taken.data_end && it.stage == NVMESIM_STAGE_ENDED && it.kept[2] == 71);
    it = nothing;
    CHECK(nvmesim_connection_take(&it, pdu, 9).status == 2);
    for (unsigned byte = 0; byte < 256; byte++) {
        const bool is_true = byte % 2 == 1;
        memset(&it, (int)byte, sizeof it);
        it.is_last = it.header_digest = it.data_digest = it.is_open = is_true;
        it.agreed.header_digests = it.agreed.data_digests = is_true;
        (void)nvmesim_connection_layout(&it), (void)nvmesim_connection_wanted(&it);
        CHECK(nvmesim_connection_take(&it, request, 128).count <= 128);
        (void)nvmesim_connection_judge(&it, true, is_true), (void)nvmesim_connection_refuse(&it, 1, byte);
    }
}

static const nvmesim_host_id hosts[17] = {{0xa1, 0xc3}, {0xb2, 0}, {0xb2, 0}};

/* A Connect of a queue with 32 entries: its entry, and its data for a host and a controller. */
static void asked(uint8_t *entry, uint8_t *bytes, uint8_t qid, uint8_t host, uint16_t cntlid) {
    memset(entry, 0, 64), memset(bytes, 0, 1024);
    entry[0] = 0x7f, entry[4] = 1, entry[42] = qid, entry[44] = 31;
    bytes[0] = host, bytes[8] = host == 0xa1 ? 0xc3 : 0, bytes[512] = 'h';
    bytes[16] = (uint8_t)cntlid, bytes[17] = (uint8_t)(cntlid >> 8);
}

static const nvmesim_judged allowed = {
    .is_whole = true, .is_known = true, .is_allowed = true, .is_enabled = true};

static bool is(nvmesim_fabrics_answer it, uint8_t sct, uint8_t sc, uint32_t dw0) {
    return it.what == NVMESIM_OK && it.sct == sct && it.sc == sc && it.dw0 == dw0;
}

/* Connects a queue, after a look at what it asks for; the answer. */
static nvmesim_fabrics_answer connect(nvmesim_fabrics *fabrics, nvmesim_session *session, uint8_t qid, uint8_t host,
                                      uint16_t cntlid, const nvmesim_judged *judged) {
    uint8_t entry[64], bytes[1024];
    asked(entry, bytes, qid, host, cntlid);
    const nvmesim_admitted it = nvmesim_fabrics_admitted(fabrics, session, entry, bytes, judged);
    if (it.place == NVMESIM_PLACE_CONTROLLER)
        CHECK(it.request.host_low == host && it.request.qid == qid && it.request.entries == 32
              && it.request.cntlid == cntlid && it.request.host_nqn[0] == 'h' && is(it.answer, 0, 0, 0));
    const nvmesim_fabrics_answer answer = nvmesim_fabrics_connect(fabrics, session, entry, bytes, judged);
    CHECK(it.place != NVMESIM_REFUSED || memcmp(&it.answer, &answer, 10) == 0);
    return answer;
}

static bool lives(nvmesim_fabrics *fabrics, const nvmesim_session *session, uint32_t kind, uint16_t index,
                  uint16_t qid) {
    const nvmesim_live_session it = nvmesim_fabrics_live(fabrics, session);
    return it.what == NVMESIM_OK && it.kind == kind && it.index == index && it.qid == qid;
}

/* Queues without keys, commands, and ends. */
static void queues(void) {
    nvmesim_fabrics fabrics = NVMESIM_NO_FABRICS;
    nvmesim_session admin = {.connection = 7}, io = {.connection = UINT64_MAX};
    uint8_t entry[64] = {0x7f, [4] = 4, [40] = 1};
    CHECK(connect(&fabrics, &admin, 0, 0xa1, 0xffff, &allowed).what == NVMESIM_CLOSED && admin.kind == 0);
    CHECK(nvmesim_fabrics_execute(&fabrics, &admin, entry).answer.what == NVMESIM_CLOSED);
    CHECK(nvmesim_fabrics_end_session(&fabrics, &admin) == NVMESIM_CLOSED && admin.kind == 0);
    CHECK(nvmesim_fabrics_open(&fabrics, hosts, 17, false) == NVMESIM_TOO_MANY && !fabrics.is_open);
    CHECK(nvmesim_fabrics_open(&fabrics, hosts, 3, false) == NVMESIM_OK);
    CHECK(nvmesim_fabrics_open(&fabrics, hosts, 3, false) == NVMESIM_ALREADY_OPEN);
    CHECK(is(connect(&fabrics, &io, 1, 0xa1, 1, &allowed), 1, 0x82, 0x10010));
    CHECK(io.kind == NVMESIM_SESSION_NOT_CONNECTED);
    CHECK(is(connect(&fabrics, &admin, 0, 0xd4, 0xffff, &allowed), 1, 0x84, 0));
    CHECK(is(connect(&fabrics, &admin, 0, 0xa1, 0xffff, &allowed), 0, 0, 1));
    CHECK(is(connect(&fabrics, &admin, 0, 0xa1, 0xffff, &allowed), 0, 0x0c, 0));
    CHECK(is(connect(&fabrics, &io, 1, 0xa1, 1, &allowed), 0, 0, 1));
    CHECK(lives(&fabrics, &admin, NVMESIM_SESSION_QUEUE, 0, 0) && lives(&fabrics, &io, NVMESIM_SESSION_QUEUE, 0, 1));
    CHECK(nvmesim_fabrics_connection(&fabrics, 0, 1).connection == UINT64_MAX);
    CHECK(nvmesim_fabrics_connection(&fabrics, 1, 0).what == NVMESIM_NO_QUEUE);
    CHECK(nvmesim_fabrics_execute(&fabrics, &admin, entry).command == NVMESIM_COMMAND_GET_PROPERTY);
    CHECK(is(nvmesim_fabrics_execute(&fabrics, &io, entry).answer, 1, 0x85, 0));
    entry[4] = 8, entry[40] = 0;
    CHECK(nvmesim_fabrics_execute(&fabrics, &io, entry).command == NVMESIM_COMMAND_DISCONNECT);
    CHECK(io.kind == NVMESIM_SESSION_ENDED && nvmesim_fabrics_connection(&fabrics, 0, 1).what == NVMESIM_NO_QUEUE);
    CHECK(nvmesim_fabrics_end_association(&fabrics, 0) == NVMESIM_OK);
    CHECK(admin.kind == NVMESIM_SESSION_QUEUE && lives(&fabrics, &admin, NVMESIM_SESSION_ENDED, 0, 0));
    CHECK(nvmesim_fabrics_end_session(&fabrics, &admin) == NVMESIM_OK && admin.kind == NVMESIM_SESSION_ENDED);
    nvmesim_fabrics_close(&fabrics);
    CHECK(!fabrics.is_open && nvmesim_fabrics_live(&fabrics, &admin).what == NVMESIM_CLOSED);
}

/* A host that has to authenticate itself. */
static void authentication(void) {
    nvmesim_fabrics fabrics = NVMESIM_NO_FABRICS;
    nvmesim_session admin = {.connection = 1}, other = {.connection = 2};
    CHECK(nvmesim_fabrics_open(&fabrics, hosts, 3, true) == NVMESIM_OK);
    CHECK(is(connect(&fabrics, &admin, 0, 0xb2, 2, &allowed), 0, 0, 0x20002));
    CHECK(is(connect(&fabrics, &other, 0, 0xb2, 2, &allowed), 0, 0, 0x20002));
    CHECK(lives(&fabrics, &admin, NVMESIM_SESSION_AUTHENTICATING, 1, 0) && admin.request.cntlid == 2);
    CHECK(is(nvmesim_fabrics_admits(&fabrics, admin.index, &admin.request, true), 0, 0, 0));
    CHECK(is(nvmesim_fabrics_authenticate(&fabrics, &admin, true, 0, 0), 0, 0, 0));
    CHECK(lives(&fabrics, &admin, NVMESIM_SESSION_QUEUE, 1, 0) && admin.request.cntlid == 0 && admin.connection == 1);
    CHECK(is(nvmesim_fabrics_admits(&fabrics, 1, &other.request, true), 1, 0x81, 0));
    CHECK(is(nvmesim_fabrics_authenticate(&fabrics, &other, true, 0, 0), 1, 0x81, 0));
    CHECK(other.kind == NVMESIM_SESSION_ENDED && lives(&fabrics, &admin, NVMESIM_SESSION_QUEUE, 1, 0));
    nvmesim_fabrics_close(&fabrics);
}

void connections(void) {
    data();
    faults();
    queues();
    authentication();
}
