/* Tests of the calls on command capsules. */
#include "hosts.h"
#include <nvmetcp.h>

enum { WRITE = 1, READ = 2, FABRICS = 0x7f, CONNECT = 1, SEND = 5, RECEIVE = 6, DISCONNECT = 8 };
enum { SGL = 0x40, IN_CAPSULE = 0x01, TRANSPORT = 0x5a, ALL = 131072 };

/* A capsule with `data_length` bytes of data, whose command has no data of its own. */
static nvmesim_capsule plain(uint8_t opcode, uint8_t cid, uint32_t data_length) {
    nvmesim_capsule it = {.data_length = data_length, .is_sound = true};
    it.entry[0] = opcode, it.entry[1] = SGL, it.entry[2] = cid;
    return it;
}

/* The capsule with this SGL. */
static nvmesim_capsule with_sgl(nvmesim_capsule it, uint64_t offset, uint32_t length, uint8_t kind) {
    for (int i = 0; i < 8; i++)
        it.entry[24 + i] = (uint8_t)(offset >> 8 * i);
    for (int i = 0; i < 4; i++)
        it.entry[32 + i] = (uint8_t)(length >> 8 * i);
    it.entry[39] = kind;
    return it;
}

/* A command of Fabrics. */
static nvmesim_capsule of_fabrics(uint8_t kind, uint8_t cid) {
    nvmesim_capsule it = plain(FABRICS, cid, 0);
    it.entry[4] = kind;
    return it;
}

static nvmesim_session session_of(uint32_t kind) {
    const nvmesim_session it = {.connection = 7, .kind = kind, .index = 2, .qid = 1};
    return it;
}

/* The commands of a connection. */
typedef struct state {
    nvmesim_responses responses;
    nvmesim_transfers transfers;
} state;

/* A queue of `sqsize` entries and one. */
static state opened(uint16_t sqsize) {
    state it = {.transfers = NVMESIM_NO_TRANSFERS};
    CHECK(nvmesim_transfers_open(&it.transfers) == NVMESIM_OK);
    nvmesim_responses_connected(&it.responses, sqsize, false);
    return it;
}

static nvmesim_capsule_taken take(state *it, uint32_t kind, nvmesim_capsule capsule) {
    const nvmesim_session session = session_of(kind);
    return nvmesim_capsules_take(&it->responses, &it->transfers, &session, &capsule);
}

static bool is(nvmesim_capsule_taken it, uint32_t outcome, uint32_t begin, uint32_t length, uint8_t sct, uint8_t sc) {
    return it.what == NVMESIM_OK && it.field == 0 && it.fatal == 0 && it.outcome == outcome && it.begin == begin &&
           it.length == length && it.sct == sct && it.sc == sc;
}

static bool refused(nvmesim_capsule_taken it, uint8_t sct, uint8_t sc) {
    return is(it, NVMESIM_CAPSULE_REFUSED, 0, 0, sct, sc);
}

static bool breaks(nvmesim_capsule_taken it) {
    return it.what == NVMESIM_BAD_PDU && it.fatal == 2 && it.field == 0 && it.length == 0 && it.sct == 0 && it.sc == 0;
}

/* The capsule of the first command of a queue. */
static nvmesim_capsule_taken first(uint32_t kind, nvmesim_capsule capsule) {
    state it = opened(63);
    const nvmesim_capsule_taken taken = take(&it, kind, capsule);
    CHECK(it.responses.count == 1 && it.responses.outstanding[0] == capsule.entry[2]);
    CHECK(nvmesim_transfers_count(&it.transfers) == (taken.outcome == NVMESIM_CAPSULE_WAITS));
    nvmesim_transfers_close(&it.transfers);
    return taken;
}

/* The places of data, and the first rule that an SGL breaks. */
static void places(void) {
    const uint32_t on = NVMESIM_SESSION_QUEUE, from = NVMESIM_CAPSULE_FROM_CONTROLLER;
    const nvmesim_capsule write = plain(WRITE, 9, 512), read = plain(READ, 9, 0);
    CHECK(is(first(on, with_sgl(write, 0, 512, IN_CAPSULE)), NVMESIM_CAPSULE_TO_CONTROLLER, 0, 512, 0, 0));
    CHECK(is(first(on, with_sgl(write, 500, 12, IN_CAPSULE)), NVMESIM_CAPSULE_TO_CONTROLLER, 500, 12, 0, 0));
    CHECK(refused(first(on, with_sgl(write, 1, 512, IN_CAPSULE)), 0, 0x0f));
    CHECK(refused(first(on, with_sgl(write, 513, 1, IN_CAPSULE)), 0, 0x16));
    CHECK(refused(first(on, with_sgl(write, UINT64_MAX, 512, IN_CAPSULE)), 0, 0x16));
    CHECK(refused(first(on, with_sgl(write, 0, ALL + 1, 0xff)), 0, 0x0f));
    CHECK(refused(first(on, with_sgl(write, 0, 512, 0xff)), 0, 0x11));
    CHECK(is(first(on, with_sgl(write, 0, ALL, TRANSPORT)), NVMESIM_CAPSULE_WAITS, 0, ALL, 0, 0));
    CHECK(is(first(on, with_sgl(read, 0, 4096, TRANSPORT)), from, 0, 4096, 0, 0));
    CHECK(refused(first(on, with_sgl(read, 0, 512, IN_CAPSULE)), 0, 0x11));
    CHECK(is(first(on, with_sgl(plain(0, 9, 0), 0, UINT32_MAX, 0xff)), from, 0, 0, 0, 0));
    CHECK(is(first(on, with_sgl(plain(3, 9, 0), 0, UINT32_MAX, 0xff)), from, 0, 0, 0, 0));
    CHECK(is(first(on, with_sgl(write, 0, 0, 0xff)), from, 0, 0, 0, 0));
    for (uint8_t psdt = 0; psdt < 4; psdt++) {
        nvmesim_capsule it = with_sgl(write, 0, 512, 0xff);
        it.entry[1] = (uint8_t)(psdt << 6 | 0x3f);
        CHECK(refused(first(on, it), 0, psdt == 1 ? 0x11 : 0x02));
    }
    /* A command of Fabrics has the direction of its FCTYPE. */
    CHECK(is(first(on, with_sgl(of_fabrics(SEND, 9), 0, 8, TRANSPORT)), NVMESIM_CAPSULE_WAITS, 0, 8, 0, 0));
    CHECK(is(first(on, with_sgl(of_fabrics(RECEIVE, 9), 0, 8, TRANSPORT)), from, 0, 8, 0, 0));
    CHECK(is(first(on, with_sgl(of_fabrics(DISCONNECT, 9), 0, 8, TRANSPORT)), from, 0, 0, 0, 0));
}

/* Refusals, in their order: each capsule breaks the rules after the one that decides, too. */
static void refusals(void) {
    const uint32_t before = NVMESIM_SESSION_NOT_CONNECTED, proving = NVMESIM_SESSION_AUTHENTICATING;
    nvmesim_capsule wrong = plain(WRITE, 9, 0), connect = of_fabrics(CONNECT, 9), send = of_fabrics(SEND, 9);
    wrong.entry[1] = connect.entry[1] = send.entry[1] = 0;
    wrong.is_sound = connect.is_sound = send.is_sound = false;
    state it = opened(63);
    CHECK(take(&it, before, of_fabrics(CONNECT, 9)).outcome == NVMESIM_CAPSULE_FROM_CONTROLLER);
    CHECK(refused(take(&it, before, wrong), 0, 0x0c) && refused(take(&it, before, send), 0, 0x0c));
    CHECK(refused(take(&it, proving, wrong), 1, 0x91) && refused(take(&it, proving, connect), 1, 0x91));
    CHECK(refused(take(&it, before, connect), 0, 0x22) && refused(take(&it, proving, send), 0, 0x22));
    for (uint32_t kind = NVMESIM_SESSION_QUEUE; kind < 7; kind++)
        CHECK(refused(take(&it, kind, wrong), 0, 0x22));
    wrong.is_sound = connect.is_sound = true;
    CHECK(refused(take(&it, before, connect), 0, 0x03) && refused(take(&it, NVMESIM_SESSION_QUEUE, wrong), 0, 0x03));
    wrong.entry[2] = 10;
    CHECK(refused(take(&it, NVMESIM_SESSION_QUEUE, wrong), 0, 0x02));
    CHECK(it.responses.count == 15 && nvmesim_transfers_count(&it.transfers) == 0);
    nvmesim_transfers_close(&it.transfers);
    /* The data of Connect are in its capsule. */
    CHECK(refused(first(before, with_sgl(of_fabrics(CONNECT, 9), 0, 1024, TRANSPORT)), 0, 0x0c));
    connect = of_fabrics(CONNECT, 9), connect.data_length = 1024;
    CHECK(first(before, with_sgl(connect, 0, 1024, IN_CAPSULE)).outcome == NVMESIM_CAPSULE_TO_CONTROLLER);
    CHECK(first(proving, of_fabrics(DISCONNECT, 9)).outcome == NVMESIM_CAPSULE_FROM_CONTROLLER);
}

/* Commands that wait, a queue without room, and ends. */
static void ends(void) {
    const uint32_t on = NVMESIM_SESSION_QUEUE;
    state it = opened(2);
    CHECK(is(take(&it, on, with_sgl(plain(WRITE, 1, 0), 0, 8, TRANSPORT)), NVMESIM_CAPSULE_WAITS, 0, 8, 0, 0));
    CHECK(is(take(&it, on, plain(READ, 2, 0)), NVMESIM_CAPSULE_FROM_CONTROLLER, 0, 0, 0, 0));
    const nvmesim_next_request request = nvmesim_transfers_next_request(&it.transfers);
    CHECK(request.what == NVMESIM_OK && request.cid == 1 && request.tag == 0 && request.length == 8);
    const nvmesim_part part = {.cid = 1, .length = 8, .is_last = true, .is_sound = true};
    const nvmesim_part_taken whole = nvmesim_transfers_take(&it.transfers, &part);
    CHECK(whole.is_complete && whole.entry[0] == WRITE && whole.entry[2] == 1 && whole.length == 8);
    CHECK(take(&it, on, plain(READ, 3, 0)).what == NVMESIM_OK);
    CHECK(breaks(take(&it, on, plain(READ, 4, 0))) && it.responses.count == 3 && it.responses.head == 1);
    nvmesim_responses_end(&it.responses);
    CHECK(breaks(take(&it, on, plain(READ, 4, 0))) && it.responses.count == 3);
    nvmesim_transfers_close(&it.transfers);
    it = opened(63);
    CHECK(nvmesim_transfers_end(&it.transfers) == NVMESIM_OK);
    CHECK(breaks(take(&it, on, with_sgl(plain(WRITE, 1, 0), 0, 8, TRANSPORT))) && it.responses.count == 1);
    nvmesim_transfers_close(&it.transfers);
    const nvmesim_capsule_taken closed = take(&it, on, plain(READ, 2, 0));
    CHECK(closed.what == NVMESIM_CLOSED && closed.outcome == 0 && closed.fatal == 0 && it.responses.count == 1);
}

static bool goes(nvmesim_live_session live, uint8_t opcode, bool has_queue, nvmesim_destination to) {
    const nvmesim_capsule it = plain(opcode, 9, 0);
    const nvmesim_destination found = nvmesim_capsules_destination(&live, it.entry, has_queue);
    return found.kind == to.kind && found.index == to.index && found.qid == to.qid && found.sct == to.sct &&
           found.sc == to.sc;
}

/* Destinations, by what a connection is. */
static void destinations(void) {
    const nvmesim_destination fabrics = {.kind = NVMESIM_DESTINATION_FABRICS};
    const nvmesim_destination sequence = {.kind = NVMESIM_DESTINATION_REFUSED, .sc = 0x0c};
    const nvmesim_destination unproved = {.kind = NVMESIM_DESTINATION_REFUSED, .sct = 1, .sc = 0x91};
    const nvmesim_destination discovery = {.kind = NVMESIM_DESTINATION_DISCOVERY};
    const nvmesim_destination admin = {.kind = NVMESIM_DESTINATION_ADMIN, .index = 2};
    const nvmesim_destination io = {.kind = NVMESIM_DESTINATION_IO, .index = 2, .qid = 1};
    for (uint32_t kind = 0; kind < 10; kind++) {
        const nvmesim_live_session live = {.kind = kind, .index = 2, .qid = 1}, admins = {.kind = kind, .index = 2};
        const bool is_queue = kind == NVMESIM_SESSION_QUEUE, is_proving = kind == NVMESIM_SESSION_AUTHENTICATING;
        const nvmesim_destination other = is_proving ? unproved
            : kind == NVMESIM_SESSION_DISCOVERY      ? discovery
                                                     : sequence;
        CHECK(goes(live, FABRICS, false, fabrics) && goes(live, FABRICS, true, fabrics));
        CHECK(goes(live, READ, false, other) && goes(admins, READ, false, other));
        CHECK(goes(live, READ, true, is_queue ? io : other) && goes(admins, READ, true, is_queue ? admin : other));
    }
}

void capsules(void) {
    places();
    refusals();
    ends();
    destinations();
}
