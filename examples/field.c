/*
 * A field computer in C: takes messages from many heads at UDP port PORT and writes one line for each. It ends when COUNT heads have come and gone.
 *
 *     field PORT COUNT
 */
#include <netinet/in.h>
#include <stdio.h>
#include <stdlib.h>
#include <string.h>
#include <sys/socket.h>
#include <unistd.h>

#include "loop.h"
#include "oilwhisper_host.h"

static void take_all(owh_hub *hub, owh_head head)
{
    static uint8_t bytes[OWH_MESSAGE_MOST];
    struct owh_message message;
    while (owh_take(hub, head, bytes, &message))
        printf("head %llu stream %u ssn %u: %zu bytes: %.*s\n", (unsigned long long)head, message.stream, message.ssn, message.length,
               (int)(message.length < 40 ? message.length : 40), (const char *)bytes);
}

int main(int argc, char **argv)
{
    if (argc != 3) {
        fprintf(stderr, "field PORT COUNT\n");
        return 2;
    }
    int left = atoi(argv[2]);
    int descriptor = socket(AF_INET6, SOCK_DGRAM, 0);
    if (descriptor < 0)
        fail("socket");
    struct sockaddr_in6 here;
    memset(&here, 0, sizeof here);
    here.sin6_family = AF_INET6;
    here.sin6_port = htons((uint16_t)atoi(argv[1]));
    if (bind(descriptor, (const struct sockaddr *)&here, sizeof here) < 0)
        fail("bind");

    struct owh_settings settings = {.port = 5001, .streams = 8, .listens = 1, .at_once = 64, .heartbeat = 2, .unanswered = 5};
    owh_hub *hub = owh_new(&settings, now());
    if (hub == NULL)
        fail("owh_new");
    while (left > 0) {
        wait_for_packet(hub, descriptor);
        struct owh_event event;
        while (owh_event(hub, &event)) {
            if (event.kind == OWH_UP)
                printf("head %llu is up\n", (unsigned long long)event.head);
            else if (event.kind == OWH_READABLE)
                take_all(hub, event.head);
            else if (event.kind == OWH_DOWN) {
                take_all(hub, event.head);
                printf("head %llu is down: %u\n", (unsigned long long)event.head, event.why);
                left--;
            }
        }
        owh_flush(hub, now());
        send_all(hub, descriptor);
    }
    owh_free(hub);
    close(descriptor);
    return 0;
}
