/* What both examples do with their clock and their socket. */
#ifndef LOOP_H
#define LOOP_H

#include <poll.h>
#include <stdio.h>
#include <stdlib.h>
#include <sys/socket.h>
#include <time.h>

#include "oilwhisper_host.h"

static inline uint64_t now(void)
{
    struct timespec time;
    clock_gettime(CLOCK_MONOTONIC, &time);
    return (uint64_t)time.tv_sec * 1000 + (uint64_t)time.tv_nsec / 1000000;
}

static inline void fail(const char *what)
{
    perror(what);
    exit(1);
}

static inline void send_all(owh_hub *hub, int socket)
{
    uint8_t packet[OWH_PACKET_MOST];
    struct sockaddr_storage to;
    socklen_t to_length;
    size_t length;
    while ((length = owh_outgoing(hub, packet, &to, &to_length)) > 0) {
        /* A packet that cannot be sent is as good as lost: it is sent again when its time has come. */
        if (sendto(socket, packet, length, 0, (const struct sockaddr *)&to, to_length) < 0)
            perror("sendto");
    }
}

/* Waits for a packet, but no longer than a timer lets it; the hub gets what came, and does what the timer asks. */
static inline void wait_for_packet(owh_hub *hub, int socket)
{
    int64_t wait = owh_wait(hub, now());
    struct pollfd polled = {.fd = socket, .events = POLLIN};
    if (poll(&polled, 1, wait < 0 || wait > 60000 ? 60000 : (int)wait) > 0) {
        uint8_t packet[2048];
        struct sockaddr_storage from;
        socklen_t from_length = sizeof from;
        ssize_t length = recvfrom(socket, packet, sizeof packet, 0, (struct sockaddr *)&from, &from_length);
        if (length >= 0)
            owh_arrive(hub, packet, (size_t)length, (const struct sockaddr *)&from, from_length, now());
    }
    owh_expire(hub, now());
}

#endif
