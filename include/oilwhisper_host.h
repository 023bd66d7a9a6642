/*
 * A host of the proved core for C: many associations on one UDP socket, which is the caller's, as is the clock. Packets and moments go in, packets and events
 * come out; timers, acknowledgements, cookies, heartbeats and the peer's address are looked after. examples/field.c and examples/head.c show the loop.
 *
 * A hub is used by one thread at a time. No pointer is null but where that is said. A socket address is a `struct sockaddr_in` or `struct sockaddr_in6` as the
 * system's calls take and give it. `now` is in milliseconds of a clock that never goes back (CLOCK_MONOTONIC), the same for all calls of a hub.
 * A number other than 0 that a call answers is one of oilwhisper.h (OW_STATE, OW_FULL and so on) or OWH_ADDRESS.
 */
#ifndef OILWHISPER_HOST_H
#define OILWHISPER_HOST_H

#include <stddef.h>
#include <stdint.h>
#include <sys/socket.h>

#ifdef __cplusplus
extern "C" {
#endif

#define OWH_MESSAGE_MOST 65536 /* bytes of the longest message: the room that owh_take wants */
#define OWH_PACKET_MOST 1472   /* bytes of the longest packet: the room that owh_outgoing wants */
#define OWH_ADDRESS 255        /* an address that is neither of IPv4 nor of IPv6 */

typedef struct owh_hub owh_hub;
typedef uint64_t owh_head;   /* one association; a number is given once */
typedef uint64_t owh_ticket; /* one message that was handed in; they are counted from 0 in each association */

struct owh_settings {
    uint16_t port;         /* our SCTP port, inside UDP */
    uint16_t streams;      /* streams wanted for sending, 1 to 128 */
    uint8_t listens;       /* 0 answers no INIT */
    uint32_t at_once;      /* associations at once */
    uint32_t heartbeat;    /* seconds until an idle peer is asked whether it is there */
    uint32_t unanswered;   /* so often it may owe the answer */
};

enum owh_kind {
    OWH_UP = 1,        /* `streams` were agreed for sending */
    OWH_READABLE = 2,  /* take until there is nothing */
    OWH_WRITABLE = 3,  /* after OW_FULL: there may be room */
    OWH_DELIVERED = 4, /* the peer has the message of `ticket` */
    OWH_QUIET = 5,     /* the peer owes an answer and was last heard `milliseconds` ago */
    OWH_HEARD = 6,     /* it is heard again */
    OWH_MOVED = 7,     /* it has another address now: owh_peer */
    OWH_DOWN = 8,      /* it is over for `why`; the `undelivered` messages from `ticket` on may not have come. What came can still be taken */
    OWH_RESTARTED = 9  /* it takes the place of `before`, of which the peer had lost all that it knew */
};

enum owh_why {
    OWH_SHUT_DOWN = 1,
    OWH_PEER_ABORTED = 2,
    OWH_WE_ABORTED = 3,
    OWH_STALE_COOKIE = 4,
    OWH_HOST_NAME = 5,
    OWH_NO_ANSWER = 6,
    OWH_BEGAN_ANEW = 7
};

struct owh_event {
    owh_head head;
    uint32_t kind;
    uint32_t why;
    uint16_t streams;
    owh_ticket ticket;
    uint64_t undelivered;
    uint64_t milliseconds;
    owh_head before;
};

struct owh_message {
    size_t length;
    uint16_t stream;
    uint8_t unordered;
    uint16_t ssn;
    uint32_t ppid;
};

/* Null where the system gives no random numbers. */
owh_hub *owh_new(const struct owh_settings *settings, uint64_t now);
/* Tells nobody: shut down or abort before. The hub may be null. */
void owh_free(owh_hub *hub);

/* Asks the peer at this UDP address and SCTP port for an association. */
int owh_connect(owh_hub *hub, const struct sockaddr *peer, socklen_t length, uint16_t port, uint64_t now, owh_head *head);
/* A packet came. */
int owh_arrive(owh_hub *hub, const uint8_t *packet, size_t length, const struct sockaddr *from, socklen_t from_length, uint64_t now);
/* Does what timers ask for. */
void owh_expire(owh_hub *hub, uint64_t now);
/* Sends what is due: to be called after all of these, best when what came was taken. */
void owh_flush(owh_hub *hub, uint64_t now);
/* Milliseconds until owh_expire and owh_flush are to be called; -1 where nothing waits. */
int64_t owh_wait(const owh_hub *hub, uint64_t now);
/* The next packet to send, with its bytes and address; 0 where there is none. `out` has OWH_PACKET_MOST bytes, `to` a whole struct sockaddr_storage. */
size_t owh_outgoing(owh_hub *hub, uint8_t *out, struct sockaddr_storage *to, socklen_t *to_length);
/* The next thing that happened: 1, or 0 where nothing did. */
int owh_event(owh_hub *hub, struct owh_event *event);

/* A message of 1 to OWH_MESSAGE_MOST bytes. After OW_FULL it is handed in again at OWH_WRITABLE. */
int owh_hand_in(owh_hub *hub, owh_head head, const uint8_t *message, size_t length, uint16_t stream, uint8_t unordered, uint32_t ppid, owh_ticket *ticket);
/* The next message that came: 1, or 0 where there is none. `out` has OWH_MESSAGE_MOST bytes. */
int owh_take(owh_hub *hub, owh_head head, uint8_t *out, struct owh_message *message);
/* No more messages: it is over when all that were handed in have come. */
int owh_shutdown(owh_hub *hub, owh_head head, uint64_t now);
int owh_abort(owh_hub *hub, owh_head head, uint64_t now);
/* Where the peer is: 1, or 0 where there is no such association any more. */
int owh_peer(const owh_hub *hub, owh_head head, struct sockaddr_storage *peer, socklen_t *length);

#ifdef __cplusplus
}
#endif

#endif
