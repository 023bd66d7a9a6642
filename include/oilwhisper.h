/*
 * Oilwhisper: an SCTP core (RFC 9260), one path, without a heap.
 *
 * The host keeps one `struct ow_association` for each association and two areas of OW_AREA bytes beside it, one for receiving and one for sending.
 * A call is lent the record and changes it where it lies. A record has no pointer: between calls it may be copied, moved and kept anywhere. The library
 * keeps nothing between calls, calls only C's memcpy and memset, and may be used from any number of threads: what one call may write, no other has meanwhile.
 *
 * Every call answers for every record, number and buffer, and has no rule that the host must keep but C's own:
 *   - a record is lent by a pointer, which is not null and has a whole record behind it;
 *   - a slice is two parameters, a pointer and a count of bytes. The pointer is not null, not even for a count of 0, and so many bytes are there;
 *   - what a call may write (the record, and each pointer that is not to const) overlaps nothing else that it was lent.
 * Addresses and counts have 64 bits. Give a call 32 KB of stack.
 *
 * What is linked are the functions of the last part, over pointers and numbers alone. The calls before it are C over them, for a record as a whole.
 *
 * Every answer begins with `number`: 0, or one of the numbers below. A refused call leaves the record as it came and writes no byte; a packet that is
 * let in may have refused chunks, each of which leaves all but what is said at OW_DUPLICATE and OW_STRAY. A call that is not refused writes the bytes of its
 * packet to `out`, exactly `length` of them, and no other. What goes to the peer is a whole SCTP packet, header and checksum in it.
 */
#ifndef OILWHISPER_H
#define OILWHISPER_H

#include <stdbool.h>
#include <stddef.h>
#include <stdint.h>
#include <string.h>

#ifdef __cplusplus
extern "C" {
#endif

/* ---- Sizes ------------------------------------------------------------------------------------------------------------------------------ */

#define OW_PLACES 128         /* chunks held for receiving, and as many for sending */
#define OW_STREAMS 128        /* streams each way, at most: 0 to 127 */
#define OW_PAYLOAD 512        /* bytes of a DATA chunk's payload, at most; the bytes of a place in an area */
#define OW_AREA 65536         /* bytes of a lent area, at least: place i is the OW_PAYLOAD bytes from OW_PAYLOAD * i on */
#define OW_OUTPUT 1472        /* bytes of a lent output, at least; of ow_take, the bytes of the message */
#define OW_PACKET_LEAST 16    /* bytes of a received packet */
#define OW_PACKET_MOST 1472
#define OW_SENT_MOST 548      /* bytes of a packet that ow_transmit writes, at most; a reply has at most OW_OUTPUT */
#define OW_MESSAGE_MOST 65536 /* bytes of a message; the least is 1 */
#define OW_COOKIE_MOST 256    /* bytes of a cookie; the least is 1 */
#define OW_WINDOW_LEAST 1500  /* the window that a peer must offer */
#define OW_LISTED 16          /* duplicates that a SACK lists, at most */
#define OW_BLOCKS 64          /* gap blocks of a SACK, at most */
#define OW_VERDICTS 365       /* chunks of a packet, at most */
#define OW_HELD_WORDS 4       /* words of a place for receiving */
#define OW_PLACE_WORDS 8      /* words of a place for sending */
#define OW_VERDICT_WORDS 4    /* words of a verdict */
#define OW_OPENING_TRIES 8    /* expiries of T1 that try again; the next one closes */
#define OW_TRIES 10           /* the same of T2 and of T3 */

/* ---- Numbers answered -------------------------------------------------------------------------------------------------------------------- */

/* Order: for a packet 1, 18, 2, 3, 4, 5, 6, then chunk by chunk 7, 8, 27 and the rest; for other calls 1, 18, 7, 19, 20. "Leaves all" but for 11 and 14. */
#define OW_DONE 0       /* not refused */
#define OW_RECORD 1     /* record outside its bounds, its `state` and `tries` name no state, its `mode` no book, or a flag is neither 0 nor 1 */
#define OW_SIZE 2       /* a packet under 16 bytes, over 1,472, or not a multiple of 4 */
#define OW_CHECKSUM 3   /* the packet's CRC32c */
#define OW_HEAD 4       /* port or tag; of ow_associate: a port 0; of ow_error_stale: a port 0 or tag 0 */
#define OW_LENGTH 5     /* a chunk's length: under its least, past the packet, or not filled by its parameters or SACK counts */
#define OW_BUNDLED 6    /* bundled where it must stand alone */
#define OW_STATE 7      /* chunk or call not for this state; of ow_t3 also: nothing outstanding */
#define OW_OPENING 8    /* INIT or INIT ACK: tag 0, no streams, window under 1,500; INIT ACK or COOKIE ECHO: cookie of 0 or over 256 bytes */
#define OW_EMPTY 9      /* DATA without payload; calls for ow_abort with OW_CAUSE_NO_DATA and the TSN */
#define OW_LONG 10      /* DATA with a payload over 512 */
#define OW_DUPLICATE 11 /* DATA that has come before; its TSN is listed for the next SACK if there is room */
#define OW_WEDGED 12    /* every place holds a low chunk and no message can be taken; calls for ow_abort with OW_CAUSE_VIOLATION */
#define OW_FAR 13       /* DATA too far ahead */
#define OW_STRAY 14     /* DATA for a stream that is not agreed: its TSN comes, nothing is held; calls for ow_error_stream */
#define OW_STALE 15     /* SACK with a point behind ours */
#define OW_FALSE 16     /* SACK that names what was never sent, or with ill blocks; calls for ow_abort with OW_CAUSE_VIOLATION */
#define OW_NOTHING 17   /* no message can be taken */
#define OW_SHORT 18     /* lent output or area too short; of ow_take's output: `message.length` is the length needed */
#define OW_MESSAGE 19   /* message of 0 or over 65,536 bytes, or stream not agreed */
#define OW_FULL 20      /* no room to send: the message needs more places than are free, and none of it was taken */
#define OW_CLASHING 21  /* DATA whose B or E contradicts the chunk held one TSN before or after it; calls for ow_abort with OW_CAUSE_VIOLATION */
#define OW_OPPOSITE 24  /* DATA exactly half the circle of TSNs from the point; told before OW_DUPLICATE, and not listed */
#define OW_COOKIE 27    /* echoed cookie bad or stale; a stale one calls for ow_error_stale */

/* ---- Numbers that never stand in for each other ------------------------------------------------------------------------------------------ */

typedef uint32_t ow_tsn;    /* transmission sequence number, on the circle of 2^32 */
typedef uint16_t ow_stream; /* stream identifier, no circle */
typedef uint16_t ow_ssn;    /* stream sequence number, on the circle of 2^16 */

/* ---- The record -------------------------------------------------------------------------------------------------------------------------- */

/* Made by ow_closed and changed by the calls alone. A host may read it; what it writes there is tested at the next call (OW_RECORD). */

/* `state`. Those marked * wait for the peer, and `tries` counts the expiries of their timer; in the others `tries` is 0. */
#define OW_CLOSED 0
#define OW_COOKIE_WAIT 1   /* * T1 runs */
#define OW_COOKIE_ECHOED 2 /* * T1 runs */
#define OW_ESTABLISHED 3
#define OW_SHUTDOWN_PENDING 4
#define OW_SHUTDOWN_SENT 5 /* * T2 runs */
#define OW_SHUTDOWN_RECEIVED 6
#define OW_SHUTDOWN_ACK_SENT 7 /* * T2 runs */

/* Ports, verification tags, the streams agreed each way, and the options agreed; in OW_COOKIE_WAIT those wanted. */
struct ow_ends {
    uint16_t local_port;
    uint16_t peer_port;
    uint32_t my_tag;
    uint32_t peer_tag;
    uint16_t streams_in;
    uint16_t streams_out;
    uint8_t options; /* 0: there is none yet, and any other number is outside the record's bounds */
};

/* Which TSNs have come: all up to `point`, and point + 1 + i where `come[i]` is 1; the first `listed` of `dups` came again since the last SACK. */
struct ow_keeping {
    ow_tsn point;
    uint8_t come[OW_PLACES]; /* each 0 or 1 */
    ow_tsn dups[OW_LISTED];
    size_t listed;
};

/* Congestion, in bytes. */
struct ow_control {
    uint32_t cwnd;
    uint32_t ssthresh;
    uint32_t partial;
};

/* Round trips, in milliseconds; `rto` is how long T1, T2 and T3 run. */
struct ow_clock {
    uint8_t sampled; /* 0 or 1 */
    uint32_t srtt;
    uint32_t rttvar;
    uint32_t rto;
};

/* The one path. `running`: fast recovery runs, until the point reaches `until`. `tries`: expiries of T3 since the peer
 * answered: a chunk was newly acknowledged, a SACK told of a window under OW_PAYLOAD, or a HEARTBEAT ACK came. */
struct ow_path {
    struct ow_control control;
    struct ow_clock clock;
    uint32_t flight;
    uint8_t running; /* 0 or 1 */
    ow_tsn until;
    uint8_t tries;
};

/* The sending side: all up to `acked` is acknowledged, `next_tsn` is the next to give, `advertised` the peer's last window, `mode` the book. */
struct ow_sender {
    ow_tsn acked;
    ow_tsn next_tsn;
    uint32_t advertised;
    uint32_t oldest;
    struct ow_path path;
    uint8_t mode; /* OW_BOOK_9260 or OW_BOOK_4960, as ow_closed was told */
};

struct ow_head {
    uint8_t state;
    uint8_t tries;
    uint16_t cookie_len; /* of the cookie of the peer's INIT ACK, which is kept for T1 */
    struct ow_ends ends;
    struct ow_keeping keeping;
    struct ow_sender sender;
};

/* `next_in` is the SSN expected next on each stream, `next_out` the next to give. */
struct ow_association {
    struct ow_head head;
    uint32_t held[OW_HELD_WORDS * OW_PLACES];    /* ow_held_of reads it */
    ow_ssn next_in[OW_STREAMS];
    uint32_t places[OW_PLACE_WORDS * OW_PLACES]; /* ow_place_of reads it */
    ow_ssn next_out[OW_STREAMS];
    uint8_t cookie[OW_COOKIE_MOST];
};

/* A place for receiving: a chunk is held there if `used`, and `len` bytes in the area are its payload. */
struct ow_held {
    bool used;
    bool begin;
    bool end;
    bool unordered;
    ow_tsn tsn;
    ow_stream stream;
    ow_ssn ssn;
    uint32_t ppid;
    uint16_t len;
};

/* The place i, under OW_PLACES, from its words: TSN; SSN; PPID; stream times 2^16, length times 16, and the flags 1, 2, 4, 8. */
static inline struct ow_held ow_held_of(const struct ow_association *association, size_t i) {
    const uint32_t *words = association->held + OW_HELD_WORDS * i;
    struct ow_held held;
    held.used = words[3] & 1;
    held.begin = words[3] >> 1 & 1;
    held.end = words[3] >> 2 & 1;
    held.unordered = words[3] >> 3 & 1;
    held.tsn = words[0];
    held.stream = (ow_stream)(words[3] >> 16);
    held.ssn = (ow_ssn)words[1];
    held.ppid = words[2];
    held.len = words[3] >> 4 & 0xfff;
    return held;
}

/* `status` of a place for sending. */
#define OW_FREE 0
#define OW_WAITING 1 /* not sent yet */
#define OW_FLYING 2  /* sent */
#define OW_MARKED 3  /* sent, and to be sent again */
#define OW_BLOCKED 4 /* acknowledged by a gap block */

/* A place for sending. `tsn` and `ssn` are given when its chunk is first sent; before that `order` is its turn. */
struct ow_place {
    uint8_t status;
    uint8_t misses;
    ow_tsn tsn;
    uint32_t order;
    ow_stream stream;
    ow_ssn ssn;
    uint32_t ppid;
    uint16_t len;
    bool begin;
    bool end;
    bool unordered;
};

/*
 * The place i, under OW_PLACES, from its words: TSN; order; SSN; PPID; stream times 2^16, length times 16, and the flags 1, 2, 4; misses times 2^8 and `status`; the
 * last two are nobody's, and stay.
 */
static inline struct ow_place ow_place_of(const struct ow_association *association, size_t i) {
    const uint32_t *words = association->places + OW_PLACE_WORDS * i;
    struct ow_place place;
    place.status = (uint8_t)words[5];
    place.misses = (uint8_t)(words[5] >> 8);
    place.tsn = words[0];
    place.order = words[1];
    place.stream = (ow_stream)(words[4] >> 16);
    place.ssn = (ow_ssn)words[2];
    place.ppid = words[3];
    place.len = words[4] >> 4 & 0xfff;
    place.begin = words[4] & 1;
    place.end = words[4] >> 1 & 1;
    place.unordered = words[4] >> 2 & 1;
    return place;
}

/* ---- Opening ----------------------------------------------------------------------------------------------------------------------------- */

/* Whether the library that is linked is the one that this header is for: ask once, before any other call. */
static inline bool ow_is_at_hand(void);

/* The books that a record can keep to when it sends: RFC 9260, or RFC 4960 (RTO from 3,000 ms, sizes by a path MTU of 576). A peer need not know. */
#define OW_BOOK_9260 0
#define OW_BOOK_4960 1

/*
 * A closed record at one of the host's ports, which keeps to this book whatever happens to it. Messages that are still to be taken stay in a record that was
 * closed; this one is empty. With another number for `book` every call answers OW_RECORD.
 */
static inline struct ow_association ow_closed(uint16_t port, uint8_t book);

/* The answer of most calls. `length`: bytes of the packet in `out`, 0 where none goes out. `over`: an expiry closed the association. */
struct ow_answer {
    uint8_t number;
    size_t length;
    bool over;
};

/*
 * Asks the peer at `port` for an association: an INIT goes out and T1 runs. In OW_CLOSED; the record starts afresh, and what was not taken is dropped.
 * `tag`: our tag, not 0, and `tsn`: our first TSN, both random. `streams`: those wanted for sending, at least 1; over 128 are used as 128.
 * Refused 1, 18, 7, 4 (port 0, the record's own too), 8 (tag 0 or no streams).
 */
static inline struct ow_answer ow_associate(struct ow_association *association, uint32_t tag, ow_tsn tsn, uint16_t port, uint16_t streams,
    uint8_t *out, size_t out_len);

/* `kind` of what ow_peek saw. */
#define OW_SAW_NOTHING 0
#define OW_SAW_INIT 1
#define OW_SAW_COOKIE_ECHO 2

/*
 * The first chunk of a packet. An INIT: the port that the packet came from and the INIT's fields; `outs` and `ins` are the streams that the peer
 * wants to send on and takes at most, `options` those that it offers and we know. A COOKIE ECHO: the cookie is the `len` bytes of the packet from `at` on. All
 * other fields are 0.
 */
struct ow_peeked {
    uint8_t number;
    uint8_t kind;
    uint16_t source;
    uint32_t tag;
    uint32_t window;
    uint16_t outs;
    uint16_t ins;
    ow_tsn tsn;
    size_t at;
    size_t len;
    uint8_t options;
};

/*
 * Looks at a packet before it arrives, so that the host can make a cookie for an INIT, or judge one that is echoed. Needs no record.
 * Refused 2, 3, 5, 6; ow_arrive answers such a packet likewise.
 */
static inline struct ow_peeked ow_peek(const uint8_t *packet, size_t packet_len);

/* ---- A packet arrives -------------------------------------------------------------------------------------------------------------------- */

/*
 * For the INIT ACK that answers an INIT: our tag, not 0, our first TSN, both random, the streams wanted for sending, and the options: 0, for there is none yet, and
 * the INIT is refused 8 with any other number. For any other packet 0s will do. Outside OW_CLOSED streams and options are the record's own, and in OW_COOKIE_WAIT and
 * OW_COOKIE_ECHOED the tag is its `my_tag` and the TSN its `next_tsn`, whatever is lent: the cookie is to be made from those. In OW_SHUTDOWN_ACK_SENT nothing is
 * looked at. Only for a peer at an address of its own may a host lend a cookie, or call one good, while there is an association.
 */
struct ow_lent {
    uint32_t tag;
    ow_tsn tsn;
    uint16_t streams;
    uint8_t options;
};

/*
 * What a cookie was made from: the tags, the streams agreed each way, both first TSNs and the peer's window; the tie-tags (RFC 9260 section 5.2.2): the record's own
 * two tags when the INIT came, or 0 in OW_CLOSED and OW_COOKIE_WAIT, which the cookie must not show; the options agreed, 0, for a good cookie with any other number
 * counts as bad.
 */
struct ow_made {
    uint32_t my_tag;
    uint32_t peer_tag;
    uint16_t streams_in;
    uint16_t streams_out;
    ow_tsn my_tsn;
    ow_tsn peer_tsn;
    uint32_t window;
    uint32_t my_tie;
    uint32_t peer_tie;
    uint8_t options;
};

/* `word`. Any other number counts as OW_BAD. */
#define OW_BAD 0   /* not ours, or changed; `made` is not looked at */
#define OW_LATE 1  /* ours, and past its lifetime */
#define OW_GOOD 2

/* The host's word on an echoed cookie. For a packet without one OW_BAD will do. */
struct ow_echoed {
    uint8_t word;
    struct ow_made made;
};

/* `fate` of a chunk. */
#define OW_ACCEPTED 0
#define OW_REFUSED 1             /* with `number` */
#define OW_SKIPPED 2             /* of an unknown type: left aside */
#define OW_SKIPPED_REPORTED 3    /* and to be reported to the peer: the ERROR is in the reply, if there is room and no other chunk silences or displaces it */
#define OW_STOPPED 4             /* of an unknown type: what follows is unread */
#define OW_STOPPED_REPORTED 5    /* and to be reported to the peer, likewise */
#define OW_UNREAD 6              /* behind a chunk that ended the packet */

/* `event` that a chunk caused. */
#define OW_NO_EVENT 0
#define OW_UP 1                  /* OW_ESTABLISHED */
#define OW_DOWN_ABORT 2          /* closed by the peer's ABORT */
#define OW_DOWN_STALE 3          /* closed: our cookie was stale */
#define OW_DOWN_HOST_NAME 4      /* closed: the peer's INIT ACK had a host name */
#define OW_DOWN_SHUT_DOWN 5      /* closed: shut down by both */
#define OW_RESTARTED 6           /* the peer began anew: the record is fresh, and OW_ESTABLISHED; what was not taken is gone */
#define OW_RETAGGED 7            /* the peer has another tag; nothing else of the record changed */

/* `cause`: the call that a verdict names, which is the host's to make; ow_abort's causes are among them. */
#define OW_CAUSE_NONE 0
#define OW_CAUSE_STREAM 1        /* ow_error_stream with `value` */
#define OW_CAUSE_STALE 3         /* ow_error_stale */
#define OW_CAUSE_NO_DATA 9       /* ow_abort with the TSN `value` */
#define OW_CAUSE_USER 12         /* ow_abort for the host's own reasons; no verdict names it */
#define OW_CAUSE_VIOLATION 13    /* ow_abort */

/* What became of the chunk that begins at byte `at` of the packet. `value` is the TSN or the stream that the named call takes, else 0. */
struct ow_verdict {
    size_t at;
    uint32_t value;
    uint8_t fate;
    uint8_t number;
    uint8_t cause;
    uint8_t event;
};

/* The verdict of the packet's chunk i, under `count`, from its words: `at`; `value`; `fate` times 2^8 and `number`; `cause` times 2^8 and `event`. */
static inline struct ow_verdict ow_verdict_of(const uint32_t *verdicts, size_t i) {
    const uint32_t *words = verdicts + OW_VERDICT_WORDS * i;
    struct ow_verdict verdict;
    verdict.at = words[0];
    verdict.value = words[1];
    verdict.fate = (uint8_t)(words[2] >> 8);
    verdict.number = (uint8_t)words[2];
    verdict.cause = (uint8_t)(words[3] >> 8);
    verdict.event = (uint8_t)words[3];
    return verdict;
}

/* `count`: of the packet's chunks, each of which has a verdict. `length`: bytes of the reply in `out`, 0 for none. */
struct ow_arrived {
    uint8_t number;
    size_t count;
    size_t length;
};

/*
 * A packet arrives, in any state: its chunks are read one by one, payloads go into `area` (the one for receiving), and what is to be answered at once goes
 * out as one reply. `lent` and `cookie` serve an INIT, `echoed` a COOKIE ECHO; ow_peek says which it is.
 * The verdicts stand in the order of the chunks; words behind the last one stay.
 * Refused 1, 18 (`area` or `out`), 2, 3, 4, 5, 6: then there are no verdicts. What refuses a chunk is in its verdict.
 */
static inline struct ow_arrived ow_arrive(struct ow_association *association, uint8_t *area, size_t area_len, uint32_t verdicts[OW_VERDICT_WORDS * OW_VERDICTS],
    const uint8_t *packet, size_t packet_len, struct ow_lent lent, const uint8_t *cookie, size_t cookie_len, struct ow_echoed echoed, uint8_t *out, size_t out_len);

/* ---- Messages ---------------------------------------------------------------------------------------------------------------------------- */

/* `chunks`: into how many the message was cut. */
struct ow_handed_in {
    uint8_t number;
    size_t chunks;
};

/*
 * A message for a stream, whole or not at all: its chunks wait in `area` (the one for sending) until ow_transmit sends them. In OW_ESTABLISHED.
 * `unordered`: 0 for a message in its stream's order, any other number for one out of it. `ppid`: a number that goes with the message to the peer's host, as it is. Refused 1, 18, 7, 19, 20.
 */
static inline struct ow_handed_in ow_hand_in(struct ow_association *association, uint8_t *area, size_t area_len, const uint8_t *message,
    size_t message_len, ow_stream stream, uint8_t unordered, uint32_t ppid);

/* `resent`: a chunk of the packet was sent before, so its round trip is not to be measured. `first`, `last`: TSNs of its chunks. 0 where nothing goes out. */
struct ow_transmitted {
    uint8_t number;
    size_t length;
    bool resent;
    ow_tsn first;
    ow_tsn last;
};

/*
 * One packet of DATA chunks, as far as flight and the peer's window allow, or `length` 0: call it until it answers that. T3 runs while anything is outstanding.
 * In OW_ESTABLISHED, OW_SHUTDOWN_PENDING, OW_SHUTDOWN_RECEIVED. Refused 1, 18 (`area`, the one for sending, or `out`), 7.
 */
static inline struct ow_transmitted ow_transmit(struct ow_association *association, const uint8_t *area, size_t area_len, uint8_t *out,
    size_t out_len);

struct ow_message {
    size_t length;
    ow_stream stream;
    bool unordered;
    ow_ssn ssn;
    uint32_t ppid;
};

struct ow_delivered {
    uint8_t number;
    struct ow_message message;
};

/*
 * Takes the next message, in any state: its bytes, `message.length` of them, go to `out`. Refused 1, 18 (`area`, the one for receiving; length 0), 17 (nothing to
 * take), 18 (`out`, which may have any count: `message.length` is the length needed).
 */
static inline struct ow_delivered ow_take(struct ow_association *association, const uint8_t *area, size_t area_len, uint8_t *out, size_t out_len);

/* The first `count` gap blocks: start and end offsets from the point. Entries behind are 0. */
struct ow_blocks {
    size_t count;
    uint16_t starts[OW_BLOCKS];
    uint16_t ends[OW_BLOCKS];
};

/* What a SACK says; the first `listed` of `dups` are duplicates. */
struct ow_sacked {
    ow_tsn point;
    uint32_t window;
    struct ow_blocks blocks;
    ow_tsn dups[OW_LISTED];
    size_t listed;
};

struct ow_acknowledged {
    uint8_t number;
    size_t length;
    struct ow_sacked sack;
};

/*
 * Tells the peer what has come: a SACK, and its values beside it; the duplicates listed are told with it. In OW_ESTABLISHED, OW_SHUTDOWN_PENDING,
 * OW_SHUTDOWN_SENT. When to call it is the host's (RFC 9260 section 6.2: every second packet with DATA, or 200 ms after one; section 5.1: the
 * first DATA at once). Refused 1, 18, 7.
 */
static inline struct ow_acknowledged ow_sack(struct ow_association *association, uint8_t *out, size_t out_len);

/* ---- Timers ------------------------------------------------------------------------------------------------------------------------------ */

/* They are the host's; each runs for `head.sender.path.clock.rto` milliseconds, which an expiry doubles. */

/* T1 expires: INIT or COOKIE ECHO again, or closed (`over`). In OW_COOKIE_WAIT, OW_COOKIE_ECHOED. Refused 1, 18, 7. */
static inline struct ow_answer ow_t1(struct ow_association *association, uint8_t *out, size_t out_len);

/* T2 expires: SHUTDOWN or SHUTDOWN ACK again, or closed (`over`). In OW_SHUTDOWN_SENT, OW_SHUTDOWN_ACK_SENT. Refused 1, 18, 7. */
static inline struct ow_answer ow_t2(struct ow_association *association, uint8_t *out, size_t out_len);

/*
 * T3 expires: all that is outstanding is marked, and ow_transmit sends it again; or closed (`over`). Writes nothing. In OW_ESTABLISHED, OW_SHUTDOWN_PENDING,
 * OW_SHUTDOWN_RECEIVED. Refused 1, 7 (also with nothing outstanding).
 */
static inline struct ow_answer ow_t3(struct ow_association *association);

/*
 * A round trip of `sample` milliseconds was measured; over 60,000 count as 60,000. Which ones count is the host's to say: none of a chunk that was sent
 * again (RFC 9260 section 6.3.1 C5). In any state but OW_CLOSED. Refused 1, 7.
 */
static inline struct ow_answer ow_rtt(struct ow_association *association, uint32_t sample);

/* ---- Closing and telling ----------------------------------------------------------------------------------------------------------------- */

/*
 * No more messages: OW_SHUTDOWN_PENDING until all that was handed in is acknowledged, or at once OW_SHUTDOWN_SENT with a SHUTDOWN, and T2 runs.
 * In OW_ESTABLISHED. Refused 1, 18, 7.
 */
static inline struct ow_answer ow_shutdown(struct ow_association *association, uint8_t *out, size_t out_len);

/*
 * OW_CLOSED at once, and an ABORT goes out (from OW_COOKIE_WAIT none: no tag of the peer is known). `cause`: OW_CAUSE_NO_DATA, which takes the `tsn`,
 * OW_CAUSE_VIOLATION, or OW_CAUSE_USER, as which any other number counts. In any state but OW_CLOSED. Refused 1, 18, 7.
 */
static inline struct ow_answer ow_abort(struct ow_association *association, uint8_t cause, ow_tsn tsn, uint8_t *out, size_t out_len);

/* Tells the peer that a stream is not agreed: an ERROR with cause 1. In OW_ESTABLISHED, OW_SHUTDOWN_PENDING, OW_SHUTDOWN_SENT. Refused 1, 18, 7. */
static inline struct ow_answer ow_error_stream(struct ow_association *association, ow_stream stream, uint8_t *out, size_t out_len);

/*
 * Tells the peer that the cookie it echoed came `late` microseconds past its lifetime: an ERROR with cause 3. `port`: the one that the echo came from. `tag`: the
 * cookie's `peer_tag`. In any state. Refused 1, 18, 4 (port 0, the record's own too, or tag 0).
 */
static inline struct ow_answer ow_error_stale(struct ow_association *association, uint16_t port, uint32_t tag, uint32_t late, uint8_t *out,
    size_t out_len);

/* A value of the host, which the peer's HEARTBEAT ACK brings back. */
struct ow_value {
    uint8_t bytes[8];
};

/* A HEARTBEAT. In OW_ESTABLISHED, OW_SHUTDOWN_PENDING, OW_SHUTDOWN_RECEIVED. Refused 1, 18, 7. */
static inline struct ow_answer ow_heartbeat(struct ow_association *association, struct ow_value value, uint8_t *out, size_t out_len);

/* ---- What is linked ---------------------------------------------------------------------------------------------------------------------- */

/*
 * Over the record's parts: its head, its tables, its cookie, each lent whole. A function returns the number, and `told` gets what else it answers, in the order of
 * the call's struct; of ow_lent_sack the length, point, window, and how many blocks and duplicates there are.
 */
#define OW_VERSION 2 /* what ow_version answers where this header is the library's */

uint32_t ow_version(void);

/* Bytes of a head, held chunks, next SSNs in, places, next SSNs out, a cookie, verdicts. */
void ow_sizes(size_t told[7]);

uint32_t ow_lent_close(struct ow_head *head, uint32_t held[OW_HELD_WORDS * OW_PLACES], ow_ssn next_in[OW_STREAMS],
    uint32_t places[OW_PLACE_WORDS * OW_PLACES], ow_ssn next_out[OW_STREAMS], uint8_t kept_cookie[OW_COOKIE_MOST], uint16_t port,
    uint8_t mode);
uint32_t ow_lent_associate(struct ow_head *head, uint32_t held[OW_HELD_WORDS * OW_PLACES], ow_ssn next_in[OW_STREAMS],
    uint32_t places[OW_PLACE_WORDS * OW_PLACES], ow_ssn next_out[OW_STREAMS], uint8_t kept_cookie[OW_COOKIE_MOST], uint32_t tag, ow_tsn tsn,
    uint16_t port, uint16_t streams, uint8_t *out, size_t out_len, size_t told[2]);
uint32_t ow_lent_peek(const uint8_t *packet, size_t packet_len, size_t told[10]);
uint32_t ow_lent_arrive(struct ow_head *head, uint32_t held[OW_HELD_WORDS * OW_PLACES], ow_ssn next_in[OW_STREAMS],
    uint32_t places[OW_PLACE_WORDS * OW_PLACES], ow_ssn next_out[OW_STREAMS], uint8_t kept_cookie[OW_COOKIE_MOST], uint8_t *area, size_t area_len,
    uint32_t verdicts[OW_VERDICT_WORDS * OW_VERDICTS], const uint8_t *packet, size_t packet_len, uint32_t tag, ow_tsn tsn, uint16_t streams,
    uint8_t options, const uint8_t *cookie, size_t cookie_len, uint8_t word, uint32_t my_tag, uint32_t peer_tag, uint16_t streams_in, uint16_t streams_out,
    ow_tsn my_tsn, ow_tsn peer_tsn, uint32_t window, uint32_t my_tie, uint32_t peer_tie, uint8_t agreed, uint8_t *out, size_t out_len, size_t told[2]);
uint32_t ow_lent_hand_in(struct ow_head *head, const uint32_t held[OW_HELD_WORDS * OW_PLACES], uint32_t places[OW_PLACE_WORDS * OW_PLACES],
    uint8_t *area, size_t area_len, const uint8_t *message, size_t message_len, ow_stream stream, uint8_t unordered, uint32_t ppid, size_t told[1]);
uint32_t ow_lent_transmit(struct ow_head *head, const uint32_t held[OW_HELD_WORDS * OW_PLACES], uint32_t places[OW_PLACE_WORDS * OW_PLACES],
    ow_ssn next_out[OW_STREAMS], const uint8_t *area, size_t area_len, uint8_t *out, size_t out_len, size_t told[4]);
uint32_t ow_lent_take(struct ow_head *head, uint32_t held[OW_HELD_WORDS * OW_PLACES], ow_ssn next_in[OW_STREAMS],
    const uint32_t places[OW_PLACE_WORDS * OW_PLACES], const uint8_t *area, size_t area_len, uint8_t *out, size_t out_len, size_t told[5]);
uint32_t ow_lent_sack(struct ow_head *head, const uint32_t held[OW_HELD_WORDS * OW_PLACES], const uint32_t places[OW_PLACE_WORDS * OW_PLACES],
    uint8_t *out, size_t out_len, uint16_t starts[OW_BLOCKS], uint16_t ends[OW_BLOCKS], ow_tsn dups[OW_LISTED], size_t told[5]);
uint32_t ow_lent_t1(struct ow_head *head, const uint32_t held[OW_HELD_WORDS * OW_PLACES], const uint32_t places[OW_PLACE_WORDS * OW_PLACES],
    const uint8_t kept_cookie[OW_COOKIE_MOST], uint8_t *out, size_t out_len, size_t told[2]);
uint32_t ow_lent_t2(struct ow_head *head, const uint32_t held[OW_HELD_WORDS * OW_PLACES], const uint32_t places[OW_PLACE_WORDS * OW_PLACES],
    const uint8_t kept_cookie[OW_COOKIE_MOST], uint8_t *out, size_t out_len, size_t told[2]);
uint32_t ow_lent_t3(struct ow_head *head, const uint32_t held[OW_HELD_WORDS * OW_PLACES], uint32_t places[OW_PLACE_WORDS * OW_PLACES],
    size_t told[2]);
uint32_t ow_lent_rtt(struct ow_head *head, const uint32_t held[OW_HELD_WORDS * OW_PLACES], const uint32_t places[OW_PLACE_WORDS * OW_PLACES],
    uint32_t sample, size_t told[2]);
uint32_t ow_lent_shutdown(struct ow_head *head, const uint32_t held[OW_HELD_WORDS * OW_PLACES], const uint32_t places[OW_PLACE_WORDS * OW_PLACES],
    uint8_t *out, size_t out_len, size_t told[2]);
uint32_t ow_lent_abort(struct ow_head *head, const uint32_t held[OW_HELD_WORDS * OW_PLACES], const uint32_t places[OW_PLACE_WORDS * OW_PLACES],
    uint8_t cause, ow_tsn tsn, uint8_t *out, size_t out_len, size_t told[2]);
uint32_t ow_lent_error_stream(struct ow_head *head, const uint32_t held[OW_HELD_WORDS * OW_PLACES],
    const uint32_t places[OW_PLACE_WORDS * OW_PLACES], ow_stream stream, uint8_t *out, size_t out_len, size_t told[2]);
uint32_t ow_lent_error_stale(struct ow_head *head, const uint32_t held[OW_HELD_WORDS * OW_PLACES], const uint32_t places[OW_PLACE_WORDS * OW_PLACES],
    uint16_t port, uint32_t tag, uint32_t late, uint8_t *out, size_t out_len, size_t told[2]);
uint32_t ow_lent_heartbeat(struct ow_head *head, const uint32_t held[OW_HELD_WORDS * OW_PLACES], const uint32_t places[OW_PLACE_WORDS * OW_PLACES],
    const uint8_t value[8], uint8_t *out, size_t out_len, size_t told[2]);

/* ---- The calls over them ----------------------------------------------------------------------------------------------------------------- */

static inline bool ow_is_at_hand(void) {
    size_t sizes[7];
    struct ow_association *lent = NULL;
    ow_sizes(sizes);
    return ow_version() == OW_VERSION && sizes[0] == sizeof lent->head && sizes[1] == sizeof lent->held && sizes[2] == sizeof lent->next_in &&
           sizes[3] == sizeof lent->places && sizes[4] == sizeof lent->next_out && sizes[5] == sizeof lent->cookie &&
           sizes[6] == sizeof(uint32_t) * OW_VERDICT_WORDS * OW_VERDICTS;
}

static inline struct ow_answer ow_answered(uint32_t number, const size_t *told) {
    struct ow_answer answer;
    answer.number = (uint8_t)number;
    answer.length = told[0];
    answer.over = told[1] != 0;
    return answer;
}

static inline struct ow_association ow_closed(uint16_t port, uint8_t book) {
    struct ow_association a;
    memset(&a, 0, sizeof a);
    ow_lent_close(&a.head, a.held, a.next_in, a.places, a.next_out, a.cookie, port, book);
    return a;
}

static inline struct ow_answer ow_associate(struct ow_association *a, uint32_t tag, ow_tsn tsn, uint16_t port, uint16_t streams, uint8_t *out, size_t out_len) {
    size_t told[2];
    uint32_t number = ow_lent_associate(&a->head, a->held, a->next_in, a->places, a->next_out, a->cookie, tag, tsn, port, streams, out, out_len, told);
    return ow_answered(number, told);
}

static inline struct ow_peeked ow_peek(const uint8_t *packet, size_t packet_len) {
    size_t told[10];
    struct ow_peeked peeked;
    peeked.number = (uint8_t)ow_lent_peek(packet, packet_len, told);
    peeked.kind = (uint8_t)told[0];
    peeked.source = (uint16_t)told[1];
    peeked.tag = (uint32_t)told[2];
    peeked.window = (uint32_t)told[3];
    peeked.outs = (uint16_t)told[4];
    peeked.ins = (uint16_t)told[5];
    peeked.tsn = (ow_tsn)told[6];
    peeked.at = told[7];
    peeked.len = told[8];
    peeked.options = (uint8_t)told[9];
    return peeked;
}

static inline struct ow_arrived ow_arrive(struct ow_association *a, uint8_t *area, size_t area_len, uint32_t verdicts[OW_VERDICT_WORDS * OW_VERDICTS],
    const uint8_t *packet, size_t packet_len, struct ow_lent lent, const uint8_t *cookie, size_t cookie_len, struct ow_echoed echoed, uint8_t *out, size_t out_len) {
    size_t told[2];
    struct ow_made made = echoed.made;
    struct ow_arrived arrived;
    arrived.number = (uint8_t)ow_lent_arrive(&a->head, a->held, a->next_in, a->places, a->next_out, a->cookie, area, area_len, verdicts, packet, packet_len,
        lent.tag, lent.tsn, lent.streams, lent.options, cookie, cookie_len, echoed.word, made.my_tag, made.peer_tag, made.streams_in, made.streams_out, made.my_tsn,
        made.peer_tsn, made.window, made.my_tie, made.peer_tie, made.options, out, out_len, told);
    arrived.count = told[0];
    arrived.length = told[1];
    return arrived;
}

static inline struct ow_handed_in ow_hand_in(struct ow_association *a, uint8_t *area, size_t area_len, const uint8_t *message, size_t message_len,
    ow_stream stream, uint8_t unordered, uint32_t ppid) {
    size_t told[1];
    struct ow_handed_in handed_in;
    handed_in.number = (uint8_t)ow_lent_hand_in(&a->head, a->held, a->places, area, area_len, message, message_len, stream, unordered, ppid, told);
    handed_in.chunks = told[0];
    return handed_in;
}

static inline struct ow_transmitted ow_transmit(struct ow_association *a, const uint8_t *area, size_t area_len, uint8_t *out, size_t out_len) {
    size_t told[4];
    struct ow_transmitted transmitted;
    transmitted.number = (uint8_t)ow_lent_transmit(&a->head, a->held, a->places, a->next_out, area, area_len, out, out_len, told);
    transmitted.length = told[0];
    transmitted.resent = told[1] != 0;
    transmitted.first = (ow_tsn)told[2];
    transmitted.last = (ow_tsn)told[3];
    return transmitted;
}

static inline struct ow_delivered ow_take(struct ow_association *a, const uint8_t *area, size_t area_len, uint8_t *out, size_t out_len) {
    size_t told[5];
    struct ow_delivered delivered;
    delivered.number = (uint8_t)ow_lent_take(&a->head, a->held, a->next_in, a->places, area, area_len, out, out_len, told);
    delivered.message.length = told[0];
    delivered.message.stream = (ow_stream)told[1];
    delivered.message.unordered = told[2] != 0;
    delivered.message.ssn = (ow_ssn)told[3];
    delivered.message.ppid = (uint32_t)told[4];
    return delivered;
}

static inline struct ow_acknowledged ow_sack(struct ow_association *a, uint8_t *out, size_t out_len) {
    size_t told[5];
    struct ow_acknowledged acknowledged;
    struct ow_sacked *sack = &acknowledged.sack;
    acknowledged.number = (uint8_t)ow_lent_sack(&a->head, a->held, a->places, out, out_len, sack->blocks.starts, sack->blocks.ends, sack->dups, told);
    acknowledged.length = told[0];
    sack->point = (ow_tsn)told[1];
    sack->window = (uint32_t)told[2];
    sack->blocks.count = told[3];
    sack->listed = told[4];
    return acknowledged;
}

static inline struct ow_answer ow_t1(struct ow_association *a, uint8_t *out, size_t out_len) {
    size_t told[2];
    uint32_t number = ow_lent_t1(&a->head, a->held, a->places, a->cookie, out, out_len, told);
    return ow_answered(number, told);
}

static inline struct ow_answer ow_t2(struct ow_association *a, uint8_t *out, size_t out_len) {
    size_t told[2];
    uint32_t number = ow_lent_t2(&a->head, a->held, a->places, a->cookie, out, out_len, told);
    return ow_answered(number, told);
}

static inline struct ow_answer ow_t3(struct ow_association *a) {
    size_t told[2];
    uint32_t number = ow_lent_t3(&a->head, a->held, a->places, told);
    return ow_answered(number, told);
}

static inline struct ow_answer ow_rtt(struct ow_association *a, uint32_t sample) {
    size_t told[2];
    uint32_t number = ow_lent_rtt(&a->head, a->held, a->places, sample, told);
    return ow_answered(number, told);
}

static inline struct ow_answer ow_shutdown(struct ow_association *a, uint8_t *out, size_t out_len) {
    size_t told[2];
    uint32_t number = ow_lent_shutdown(&a->head, a->held, a->places, out, out_len, told);
    return ow_answered(number, told);
}

static inline struct ow_answer ow_abort(struct ow_association *a, uint8_t cause, ow_tsn tsn, uint8_t *out, size_t out_len) {
    size_t told[2];
    uint32_t number = ow_lent_abort(&a->head, a->held, a->places, cause, tsn, out, out_len, told);
    return ow_answered(number, told);
}

static inline struct ow_answer ow_error_stream(struct ow_association *a, ow_stream stream, uint8_t *out, size_t out_len) {
    size_t told[2];
    uint32_t number = ow_lent_error_stream(&a->head, a->held, a->places, stream, out, out_len, told);
    return ow_answered(number, told);
}

static inline struct ow_answer ow_error_stale(struct ow_association *a, uint16_t port, uint32_t tag, uint32_t late, uint8_t *out, size_t out_len) {
    size_t told[2];
    uint32_t number = ow_lent_error_stale(&a->head, a->held, a->places, port, tag, late, out, out_len, told);
    return ow_answered(number, told);
}

static inline struct ow_answer ow_heartbeat(struct ow_association *a, struct ow_value value, uint8_t *out, size_t out_len) {
    size_t told[2];
    uint32_t number = ow_lent_heartbeat(&a->head, a->held, a->places, value.bytes, out, out_len, told);
    return ow_answered(number, told);
}

#ifdef __cplusplus
}
#endif

#endif
