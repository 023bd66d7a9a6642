/* The foreign side of the interoperation tests: libusrsctp, one association over UDP on loopback (RFC 6951).
 *
 *     peer connect|listen here=UDP there=UDP send=N take=N plan=one|spread first=both|us|peer end=shutdown|abort|peer-shutdown|peer-abort
 *          extensions=off|on|many streams=N fragment=BYTES mtu=BYTES heartbeat=MS idle=MS vanish=N restarts=N seconds=S
 *
 * Sends its messages, compares those that come byte by byte, ends as told. 'vanish': when so many have come, without a word. 'restarts': so often the other begins
 * anew, and then all messages go again. Exit status 0 only where all was as planned. */
#include <arpa/inet.h>
#include <errno.h>
#include <pthread.h>
#include <signal.h>
#include <stdarg.h>
#include <stdbool.h>
#include <stdint.h>
#include <stdio.h>
#include <stdlib.h>
#include <string.h>
#include <time.h>
#include <unistd.h>
#include <usrsctp.h>

enum {
    OUR_PORT = 5001, /* Oilwhisper's */
    PEER_PORT = 5002, /* this program's */
    LONGEST = 65536,
    STREAMS = 8, /* that the plan uses */
    NUMBERED = 0x52000000, /* message 0's payload protocol identifier, far from those that a dissector knows */
    THEIRS = 1, /* the direction that this program sends in */
    OURS = 0
};

static const char *role = "connect", *plan = "spread", *first = "both", *ends = "shutdown", *extensions = "off";
static unsigned here = 19899, there = 29899, to_send, to_take, heartbeat = 30000, idle, vanish, restarts, seconds = 60;
/* What Oilwhisper reads: DATA of at most 512 bytes, chunks of a packet that make at most 1,472 with its header. */
static unsigned fragment = 512, mtu = 1400, streams = STREAMS;
static struct socket *sock;
static bool is_shut_down, is_lost, is_restarted;

static void fault(const char *format, ...)
{
    va_list values;
    va_start(values, format);
    fputs("peer: ", stderr);
    vfprintf(stderr, format, values);
    fputc('\n', stderr);
    va_end(values);
    _exit(1);
}

static void must(int result, const char *what)
{
    if (result < 0)
        fault("%s: %s", what, strerror(errno));
}

static void ring(int number)
{
    static const char late[] = "peer: not over in time\n";
    (void)number;
    (void)!write(2, late, sizeof late - 1);
    _exit(1);
}

static void pause_ms(unsigned ms)
{
    struct timespec time = {ms / 1000, (long)(ms % 1000) * 1000000};
    nanosleep(&time, NULL);
}

/* The plan. tests/interop/run's other side (host/rail/src/bin/interop.rs) has it too, in its own words. */

static bool is_spread(void)
{
    return strcmp(plan, "spread") == 0;
}

static uint16_t stream_of(unsigned i)
{
    return is_spread() ? i % STREAMS : 3;
}

static bool is_unordered(unsigned i)
{
    return is_spread() && i % 5 == 4;
}

static size_t length_of(unsigned i)
{
    if (is_spread())
        return i % 100 == 50 ? LONGEST : 1 + i * 7919u % 2000;
    return i % 997 == 5 ? 513 + i * 7919u % 3000 : 1 + i * 31u % 120;
}

static uint8_t byte_of(unsigned direction, unsigned i, size_t at)
{
    uint32_t word = i * 2654435761u + direction * 2654435769u;
    return (uint8_t)((word >> 8 * (at & 3)) ^ (at * 31));
}

static void *send_all(void *unused)
{
    static uint8_t message[LONGEST];
    for (unsigned i = 0; i < to_send; i++) {
        struct sctp_sndinfo info = {.snd_sid = stream_of(i), .snd_ppid = htonl(NUMBERED + i)};
        size_t length = length_of(i);
        if (is_unordered(i))
            info.snd_flags = SCTP_UNORDERED;
        for (size_t at = 0; at < length; at++)
            message[at] = byte_of(THEIRS, i, at);
        ssize_t sent = usrsctp_sendv(sock, message, length, NULL, 0, &info, sizeof info, SCTP_SENDV_SNDINFO, 0);
        if (sent != (ssize_t)length)
            fault("message %u of %zu bytes: sendv answers %zd: %s", i, length, sent, strerror(errno));
    }
    return unused;
}

static void note(const union sctp_notification *news)
{
    if (news->sn_header.sn_type != SCTP_ASSOC_CHANGE)
        return;
    switch (news->sn_assoc_change.sac_state) {
    case SCTP_COMM_UP:
        printf("peer: up, %u streams out, %u in\n", news->sn_assoc_change.sac_outbound_streams, news->sn_assoc_change.sac_inbound_streams);
        break;
    case SCTP_SHUTDOWN_COMP:
        is_shut_down = true;
        break;
    case SCTP_COMM_LOST:
        is_lost = true;
        break;
    case SCTP_RESTART:
        if (restarts == 0)
            fault("the association restarted");
        restarts--;
        is_restarted = true;
        break;
    case SCTP_CANT_STR_ASSOC:
        fault("no association");
        break;
    }
}

/* The next message, whole; its length, or 0 at an end. */
static size_t take(uint8_t *message, struct sctp_rcvinfo *info)
{
    size_t length = 0;
    for (;;) {
        socklen_t info_size = sizeof *info;
        unsigned kind = 0;
        int flags = 0;
        ssize_t came = usrsctp_recvv(sock, message + length, LONGEST + 1 - length, NULL, NULL, info, &info_size, &kind, &flags);
        if (came < 0 && (errno == ECONNRESET || errno == ECONNABORTED || errno == ENOTCONN)) {
            is_lost = true;
            return 0;
        }
        must((int)came, "recvv");
        if (came == 0)
            return 0;
        if (flags & MSG_NOTIFICATION) {
            note((const union sctp_notification *)(message + length));
            if (is_lost || is_shut_down || is_restarted)
                return 0;
            continue;
        }
        if (kind != SCTP_RECVV_RCVINFO)
            fault("a message without its stream");
        length += (size_t)came;
        if (flags & MSG_EOR)
            return length;
        if (length > LONGEST)
            fault("a message of more than %d bytes", LONGEST);
    }
}

/* All messages of one life of the other's; false where it began anew before. */
static bool take_all(void)
{
    static uint8_t message[LONGEST + 1];
    uint32_t ordered[STREAMS] = {0}, latest[STREAMS] = {0};
    bool *came = calloc(to_take + 1, sizeof *came);
    struct sctp_rcvinfo info;
    uint64_t bytes = 0;
    unsigned circles = 0;
    for (unsigned count = 0; count < to_take; count++) {
        if (vanish != 0 && count == vanish) {
            printf("peer: vanishes after %u messages\n", count);
            _exit(0);
        }
        size_t length = take(message, &info);
        if (length == 0 && is_restarted) {
            printf("peer: restarted after %u messages, each once and in order\n", count);
            is_restarted = false;
            free(came);
            return false;
        }
        if (length == 0)
            fault("an end after %u of %u messages", count, to_take);
        unsigned i = ntohl(info.rcv_ppid) - NUMBERED;
        if (i >= to_take || came[i])
            fault("message %u came, which was never sent or came before", i);
        came[i] = true;
        if (length != length_of(i) || info.rcv_sid != stream_of(i) || !(info.rcv_flags & SCTP_UNORDERED) == is_unordered(i))
            fault("message %u: %zu bytes on stream %u, flags %x", i, length, info.rcv_sid, info.rcv_flags);
        for (size_t at = 0; at < length; at++)
            if (message[at] != byte_of(OURS, i, at))
                fault("message %u differs at byte %zu of %zu", i, at, length);
        bytes += length;
        if (is_unordered(i))
            continue;
        uint32_t before = ordered[info.rcv_sid]++;
        if (info.rcv_ssn != (uint16_t)before || (before > 0 && i <= latest[info.rcv_sid]))
            fault("message %u has SSN %u where %u was due", i, info.rcv_ssn, (uint16_t)before);
        circles += before > 0 && info.rcv_ssn == 0;
        latest[info.rcv_sid] = i;
    }
    printf("peer: %u messages compared, %llu bytes, %u SSN circles closed\n", to_take, (unsigned long long)bytes, circles);
    free(came);
    return true;
}

static void set(struct socket *s, int name, const void *value, socklen_t size, const char *what)
{
    must(usrsctp_setsockopt(s, IPPROTO_SCTP, name, value, size), what);
}

static void ready(struct socket *s)
{
    const uint16_t events[] = {SCTP_ASSOC_CHANGE, SCTP_SHUTDOWN_EVENT};
    const int on = 1;
    for (size_t k = 0; k < sizeof events / sizeof *events; k++) {
        struct sctp_event event = {.se_assoc_id = SCTP_FUTURE_ASSOC, .se_type = events[k], .se_on = 1};
        set(s, SCTP_EVENT, &event, sizeof event, "SCTP_EVENT");
    }
    set(s, SCTP_RECVRCVINFO, &on, sizeof on, "SCTP_RECVRCVINFO");
    struct sctp_assoc_value longest = {.assoc_id = SCTP_FUTURE_ASSOC, .assoc_value = fragment};
    set(s, SCTP_MAXSEG, &longest, sizeof longest, "SCTP_MAXSEG");
    struct sctp_paddrparams path = {.spp_assoc_id = SCTP_FUTURE_ASSOC, .spp_flags = SPP_PMTUD_DISABLE | SPP_HB_ENABLE,
                                    .spp_pathmtu = mtu, .spp_hbinterval = heartbeat};
    path.spp_address.ss_family = AF_INET;
    set(s, SCTP_PEER_ADDR_PARAMS, &path, sizeof path, "SCTP_PEER_ADDR_PARAMS");
    struct sctp_initmsg init = {.sinit_num_ostreams = (uint16_t)streams, .sinit_max_instreams = (uint16_t)streams};
    set(s, SCTP_INITMSG, &init, sizeof init, "SCTP_INITMSG");
    /* Every chunk type that may be authenticated stands in the INIT ACK, and so in the cookie. */
    for (unsigned type = 0; type < 256 && strcmp(extensions, "many") == 0; type++) {
        struct sctp_authchunk chunk = {.sauth_chunk = (uint8_t)type};
        (void)usrsctp_setsockopt(s, IPPROTO_SCTP, SCTP_AUTH_CHUNK, &chunk, sizeof chunk);
    }
    struct sctp_udpencaps encapsulation = {.sue_assoc_id = SCTP_FUTURE_ASSOC, .sue_port = htons((uint16_t)there)};
    encapsulation.sue_address.ss_family = AF_INET;
    set(s, SCTP_REMOTE_UDP_ENCAPS_PORT, &encapsulation, sizeof encapsulation, "SCTP_REMOTE_UDP_ENCAPS_PORT");
}

static struct sockaddr_in loopback(uint16_t port)
{
    struct sockaddr_in address = {.sin_family = AF_INET, .sin_port = htons(port)};
    address.sin_addr.s_addr = htonl(INADDR_LOOPBACK);
    return address;
}

static void associate(void)
{
    struct sockaddr_in mine = loopback(PEER_PORT), other = loopback(OUR_PORT);
    struct socket *s = usrsctp_socket(AF_INET, SOCK_STREAM, IPPROTO_SCTP, NULL, NULL, 0, NULL);
    if (s == NULL)
        fault("no socket: %s", strerror(errno));
    ready(s);
    must(usrsctp_bind(s, (struct sockaddr *)&mine, sizeof mine), "bind");
    if (strcmp(role, "connect") == 0) {
        must(usrsctp_connect(s, (struct sockaddr *)&other, sizeof other), "connect");
        sock = s;
        return;
    }
    must(usrsctp_listen(s, 1), "listen");
    puts("peer: listening");
    sock = usrsctp_accept(s, NULL, NULL);
    if (sock == NULL)
        fault("accept: %s", strerror(errno));
    usrsctp_close(s);
}

static void start_stack(void)
{
    usrsctp_init((uint16_t)here, NULL, NULL);
    /* On loopback the stack would neither make nor check checksums. */
    usrsctp_sysctl_set_sctp_no_csum_on_loopback(0);
    if (strcmp(extensions, "off") != 0)
        return;
    usrsctp_sysctl_set_sctp_ecn_enable(0);
    usrsctp_sysctl_set_sctp_pr_enable(0);
    usrsctp_sysctl_set_sctp_asconf_enable(0);
    usrsctp_sysctl_set_sctp_auth_enable(0);
    usrsctp_sysctl_set_sctp_reconfig_enable(0);
    usrsctp_sysctl_set_sctp_nrsack_enable(0);
    usrsctp_sysctl_set_sctp_pktdrop_enable(0);
}

static void end(void)
{
    static uint8_t rest[LONGEST + 1];
    struct sctp_rcvinfo info;
    if (strcmp(ends, "abort") == 0) {
        const struct linger at_once = {.l_onoff = 1, .l_linger = 0};
        must(usrsctp_setsockopt(sock, SOL_SOCKET, SO_LINGER, &at_once, sizeof at_once), "SO_LINGER");
        usrsctp_close(sock);
        puts("peer: aborted");
        return;
    }
    if (strcmp(ends, "shutdown") == 0)
        must(usrsctp_shutdown(sock, SHUT_WR), "shutdown");
    if (take(rest, &info) != 0)
        fault("a message came after the last");
    while (!is_shut_down && !is_lost && take(rest, &info) == 0)
        pause_ms(1);
    if (is_lost != (strcmp(ends, "peer-abort") == 0))
        fault(is_lost ? "the association was lost" : "the association was shut down");
    puts(is_lost ? "peer: lost by the other's abort" : "peer: shut down by both");
    usrsctp_close(sock);
}

/* What this stack found wrong with our packets. */
static void tell_refusals(void)
{
    struct sctpstat stat;
    usrsctp_get_stat(&stat);
    printf("peer: %u packets with a bad checksum, %u with a bad tag, %u cut short\n", stat.sctps_badsum, stat.sctps_badvtag, stat.sctps_hdrops);
}

static void read_word(const char *word)
{
    const char *value = strchr(word, '=');
    const struct { const char *name; unsigned *number; const char **text; } known[] = {
        {"here", &here, NULL}, {"there", &there, NULL}, {"send", &to_send, NULL}, {"take", &to_take, NULL}, {"heartbeat", &heartbeat, NULL},
        {"idle", &idle, NULL}, {"seconds", &seconds, NULL}, {"fragment", &fragment, NULL}, {"mtu", &mtu, NULL}, {"streams", &streams, NULL},
        {"vanish", &vanish, NULL}, {"restarts", &restarts, NULL}, {"plan", NULL, &plan}, {"first", NULL, &first}, {"end", NULL, &ends},
        {"extensions", NULL, &extensions}};
    if (value == NULL) {
        role = word;
        return;
    }
    for (size_t k = 0; k < sizeof known / sizeof *known; k++) {
        if (strncmp(word, known[k].name, (size_t)(value - word)) != 0 || strlen(known[k].name) != (size_t)(value - word))
            continue;
        if (known[k].number)
            *known[k].number = (unsigned)strtoul(value + 1, NULL, 10);
        else
            *known[k].text = value + 1;
        return;
    }
    fault("what is %s?", word);
}

int main(int count, char **words)
{
    pthread_t sender;
    for (int k = 1; k < count; k++)
        read_word(words[k]);
    setvbuf(stdout, NULL, _IOLBF, 0);
    signal(SIGALRM, ring);
    alarm(seconds);
    start_stack();
    associate();
    /* What is sent to a life stands in the stack before it ends, so that none of it goes to the next. */
    while (restarts > 0) {
        send_all(NULL);
        if (take_all())
            fault("all messages came before a restart");
    }
    /* 'first=us': Oilwhisper's messages come first. */
    if (strcmp(first, "us") == 0)
        take_all();
    if (pthread_create(&sender, NULL, send_all, NULL) != 0)
        fault("no thread");
    if (strcmp(first, "us") != 0) {
        if (strcmp(first, "peer") == 0)
            pthread_join(sender, NULL);
        take_all();
    }
    if (strcmp(first, "peer") != 0)
        pthread_join(sender, NULL);
    pause_ms(idle);
    end();
    tell_refusals();
    for (unsigned tries = 0; usrsctp_finish() != 0 && tries < 100; tries++)
        pause_ms(10);
    puts("peer: ended as planned");
    return 0;
}
