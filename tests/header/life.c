/* A whole life through the header, between two records of one program: opened, a message of each kind sent, acknowledged and taken, shut down. */
#include "oilwhisper.h"

#include <stdio.h>
#include <stdlib.h>

#define CHECK(what) \
    do { \
        if (!(what)) { \
            printf("life.c:%d: not so: %s\n", __LINE__, #what); \
            exit(1); \
        } \
    } while (0)

struct side {
    struct ow_association record;
    uint8_t received[OW_AREA];
    uint8_t sent[OW_AREA];
};

static struct side ours, theirs;
static uint8_t packet[OW_OUTPUT], reply[OW_OUTPUT], taken[OW_MESSAGE_MOST];
static uint32_t verdicts[OW_VERDICT_WORDS * OW_VERDICTS];
static const uint8_t cookie[4] = {1, 2, 3, 4};
static const struct ow_lent no_lent = {0, 0, 0, 0};
static const struct ow_echoed no_word = {0, {0, 0, 0, 0, 0, 0, 0, 0, 0, 0}};

/* What the side makes of the packet's first `length` bytes: let in, its chunk accepted; the reply's length. */
static size_t arrives(struct side *at, const void *bytes, size_t length, struct ow_lent lent, struct ow_echoed echoed, uint8_t event) {
    struct ow_arrived a =
        ow_arrive(&at->record, at->received, sizeof at->received, verdicts, (const uint8_t *)bytes, length, lent, cookie, sizeof cookie, echoed, reply, sizeof reply);
    CHECK(a.number == OW_DONE);
    CHECK(a.count >= 1);
    CHECK(ow_verdict_of(verdicts, 0).fate == OW_ACCEPTED);
    CHECK(ow_verdict_of(verdicts, 0).at == 12);
    CHECK(ow_verdict_of(verdicts, 0).event == event);
    return a.length;
}

static void opens(void) {
    struct ow_lent lent = {0x22222222, 2000, 10, 0};
    struct ow_echoed echoed = no_word;
    struct ow_peeked p;
    struct ow_answer r;
    size_t n;

    ours.record = ow_closed(36412, 2);
    CHECK(ow_associate(&ours.record, 0x11111111, 1000, 36412, 10, packet, sizeof packet).number == OW_RECORD);
    ours.record = ow_closed(36412, OW_BOOK_4960);
    CHECK(ours.record.head.sender.mode == OW_BOOK_4960 && ours.record.head.sender.path.clock.rto == 3000);
    CHECK(ow_associate(&ours.record, 0x11111111, 1000, 36412, 10, packet, sizeof packet).number == OW_DONE);
    CHECK(ours.record.head.sender.mode == OW_BOOK_4960 && ours.record.head.sender.path.control.cwnd == 2304);
    ours.record = ow_closed(36412, OW_BOOK_9260);
    theirs.record = ow_closed(36412, OW_BOOK_9260);
    CHECK(ours.record.head.sender.path.clock.rto == 1000);
    CHECK(ow_t1(&ours.record, packet, sizeof packet).number == OW_STATE);
    CHECK(ow_associate(&ours.record, 0x11111111, 1000, 36412, 10, packet, sizeof packet - 1).number == OW_SHORT);
    CHECK(ow_associate(&ours.record, 0, 1000, 36412, 10, packet, sizeof packet).number == OW_OPENING);
    r = ow_associate(&ours.record, 0x11111111, 1000, 36412, 10, packet, sizeof packet);
    CHECK(r.number == OW_DONE && r.length == 32 && !r.over);
    CHECK(ours.record.head.state == OW_COOKIE_WAIT);
    r = ow_t1(&ours.record, packet, sizeof packet);
    CHECK(r.number == OW_DONE && r.length == 32 && ours.record.head.tries == 1);

    p = ow_peek(packet, r.length);
    CHECK(p.number == OW_DONE && p.kind == OW_SAW_INIT && p.source == 36412 && p.tag == 0x11111111 && p.tsn == 1000 && p.outs == 10 && p.options == 0);
    n = arrives(&theirs, packet, r.length, lent, no_word, OW_NO_EVENT);
    CHECK(n > 0 && theirs.record.head.state == OW_CLOSED);
    n = arrives(&ours, memcpy(packet, reply, n), n, no_lent, no_word, OW_NO_EVENT);
    CHECK(n > 0 && ours.record.head.state == OW_COOKIE_ECHOED && ours.record.head.cookie_len == 4 && memcmp(ours.record.cookie, cookie, 4) == 0);

    memcpy(packet, reply, n);
    p = ow_peek(packet, n);
    CHECK(p.number == OW_DONE && p.kind == OW_SAW_COOKIE_ECHO && p.len == 4 && memcmp(packet + p.at, cookie, 4) == 0);
    echoed.word = OW_GOOD;
    echoed.made.my_tag = 0x22222222;
    echoed.made.peer_tag = 0x11111111;
    echoed.made.streams_in = 10;
    echoed.made.streams_out = 10;
    echoed.made.my_tsn = 2000;
    echoed.made.peer_tsn = 1000;
    echoed.made.window = 65536;
    n = arrives(&theirs, packet, n, no_lent, echoed, OW_UP);
    CHECK(theirs.record.head.state == OW_ESTABLISHED);
    n = arrives(&ours, memcpy(packet, reply, n), n, no_lent, no_word, OW_UP);
    CHECK(n == 0 && ours.record.head.state == OW_ESTABLISHED);
}

/* A message of so many bytes from ours to theirs. */
static void sends(size_t length, ow_stream stream, uint8_t unordered, uint32_t ppid, ow_ssn ssn) {
    static uint8_t message[OW_MESSAGE_MOST];
    struct ow_handed_in h;
    struct ow_transmitted t;
    struct ow_delivered d;
    struct ow_acknowledged k;
    size_t i, chunks = 0;

    for (i = 0; i < length; i++) {
        message[i] = (uint8_t)(i * 7 + ppid);
    }
    h = ow_hand_in(&ours.record, ours.sent, sizeof ours.sent, message, length, stream, unordered, ppid);
    CHECK(h.number == OW_DONE && h.chunks == (length + OW_PAYLOAD - 1) / OW_PAYLOAD);
    for (;;) {
        t = ow_transmit(&ours.record, ours.sent, sizeof ours.sent, packet, sizeof packet);
        CHECK(t.number == OW_DONE && !t.resent);
        if (t.length == 0) {
            k = ow_sack(&theirs.record, packet, sizeof packet);
            CHECK(k.number == OW_DONE && k.length > 0 && k.sack.blocks.count == 0 && k.sack.listed == 0);
            CHECK(k.sack.point == theirs.record.head.keeping.point);
            CHECK(arrives(&ours, packet, k.length, no_lent, no_word, OW_NO_EVENT) == 0);
            if (chunks == h.chunks) {
                break;
            }
            continue;
        }
        CHECK(t.length <= OW_SENT_MOST && t.last - t.first + 1 >= 1);
        chunks += t.last - t.first + 1;
        CHECK(arrives(&theirs, packet, t.length, no_lent, no_word, OW_NO_EVENT) == 0);
    }
    CHECK(ours.record.head.sender.path.flight == 0);
    CHECK(ow_rtt(&ours.record, 40).number == OW_DONE);
    d = ow_take(&theirs.record, theirs.received, sizeof theirs.received, taken, length - 1);
    CHECK(d.number == OW_SHORT && d.message.length == length);
    d = ow_take(&theirs.record, theirs.received, sizeof theirs.received, taken, sizeof taken);
    CHECK(d.number == OW_DONE && d.message.length == length && d.message.stream == stream && d.message.unordered == (unordered != 0));
    CHECK(d.message.ppid == ppid && (unordered || d.message.ssn == ssn) && memcmp(taken, message, length) == 0);
    CHECK(ow_take(&theirs.record, theirs.received, sizeof theirs.received, taken, sizeof taken).number == OW_NOTHING);
}

static void closes(void) {
    struct ow_answer r = ow_shutdown(&ours.record, packet, sizeof packet);
    size_t n;
    CHECK(r.number == OW_DONE && r.length > 0 && ours.record.head.state == OW_SHUTDOWN_SENT);
    n = arrives(&theirs, packet, r.length, no_lent, no_word, OW_NO_EVENT);
    CHECK(n > 0 && theirs.record.head.state == OW_SHUTDOWN_ACK_SENT);
    n = arrives(&ours, memcpy(packet, reply, n), n, no_lent, no_word, OW_DOWN_SHUT_DOWN);
    CHECK(n > 0 && ours.record.head.state == OW_CLOSED);
    n = arrives(&theirs, memcpy(packet, reply, n), n, no_lent, no_word, OW_DOWN_SHUT_DOWN);
    CHECK(n == 0 && theirs.record.head.state == OW_CLOSED);
}

/* The rest of the calls, and what a record that names no state answers. */
static void others(void) {
    struct ow_value value = {{1, 2, 3, 4, 5, 6, 7, 8}};
    struct ow_association before;

    opens();
    CHECK(ow_heartbeat(&ours.record, value, packet, sizeof packet).length > 0);
    CHECK(ow_error_stream(&ours.record, 99, packet, sizeof packet).length > 0);
    CHECK(ow_error_stale(&ours.record, 1, 2, 3, packet, sizeof packet).length > 0);
    CHECK(ow_error_stale(&ours.record, 0, 2, 3, packet, sizeof packet).number == OW_HEAD);
    CHECK(ow_t2(&ours.record, packet, sizeof packet).number == OW_STATE);
    CHECK(ow_t3(&ours.record).number == OW_STATE);
    ours.record.head.state = 9;
    before = ours.record;
    CHECK(ow_t3(&ours.record).number == OW_RECORD);
    CHECK(ow_abort(&ours.record, OW_CAUSE_USER, 0, packet, sizeof packet).number == OW_RECORD);
    CHECK(memcmp(&before, &ours.record, sizeof before) == 0);
    ours.record.head.state = OW_ESTABLISHED;
    CHECK(ow_abort(&ours.record, OW_CAUSE_NO_DATA, 7, packet, sizeof packet).length > 0);
    CHECK(ours.record.head.state == OW_CLOSED);
}

int main(void) {
    CHECK(ow_is_at_hand());
    opens();
    sends(1, 0, 0, 7, 0);
    sends(512, 3, 0, 0xfffffffe, 0);
    sends(20000, 3, 0, 9, 1);
    sends(700, 5, 1, 10, 0);
    closes();
    others();
    printf("header: a whole life through every call\n");
    return 0;
}
