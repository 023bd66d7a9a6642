/*
 * A head in C: asks the field computer at 127.0.0.1:PORT for an association, hands in COUNT messages, and shuts down when the field computer has them all. Its exit
 * status is 0 where each of them was delivered.
 *
 *     head PORT COUNT
 */
#include <netinet/in.h>
#include <stdio.h>
#include <stdlib.h>
#include <string.h>
#include <sys/socket.h>
#include <unistd.h>

#include "loop.h"
#include "oilwhisper_host.h"

int main(int argc, char **argv)
{
    if (argc != 3) {
        fprintf(stderr, "head PORT COUNT\n");
        return 2;
    }
    unsigned count = (unsigned)atoi(argv[2]), handed_in = 0, delivered = 0;
    int descriptor = socket(AF_INET, SOCK_DGRAM, 0);
    if (descriptor < 0)
        fail("socket");
    struct sockaddr_in field;
    memset(&field, 0, sizeof field);
    field.sin_family = AF_INET;
    field.sin_port = htons((uint16_t)atoi(argv[1]));
    field.sin_addr.s_addr = htonl(INADDR_LOOPBACK);

    struct owh_settings settings = {.port = 5000, .streams = 8, .listens = 0, .at_once = 1, .heartbeat = 2, .unanswered = 5};
    owh_hub *hub = owh_new(&settings, now());
    if (hub == NULL)
        fail("owh_new");
    owh_head head;
    int number = owh_connect(hub, (const struct sockaddr *)&field, sizeof field, 5001, now(), &head);
    if (number != 0) {
        fprintf(stderr, "head: refused %d\n", number);
        return 1;
    }
    int is_up = 0, is_down = 0, is_shut = 0;
    while (!is_down) {
        owh_flush(hub, now());
        send_all(hub, descriptor);
        wait_for_packet(hub, descriptor);
        struct owh_event event;
        while (owh_event(hub, &event)) {
            if (event.kind == OWH_UP)
                is_up = 1;
            else if (event.kind == OWH_DELIVERED)
                delivered++;
            else if (event.kind == OWH_DOWN) {
                is_down = 1;
                if (event.why != OWH_SHUT_DOWN || event.undelivered > 0)
                    fprintf(stderr, "head: down for %u, %llu messages may not have come\n", event.why, (unsigned long long)event.undelivered);
            }
        }
        while (is_up && !is_down && handed_in < count) {
            char text[64];
            owh_ticket ticket;
            int length = snprintf(text, sizeof text, "tile %u of process %d", handed_in, (int)getpid());
            if (owh_hand_in(hub, head, (const uint8_t *)text, (size_t)length, (uint16_t)(handed_in % 8), 0, 0, &ticket) != 0)
                break; /* OW_FULL: there is room when something was delivered */
            handed_in++;
        }
        if (delivered == count && !is_shut)
            is_shut = owh_shutdown(hub, head, now()) == 0;
    }
    /* The last word: without it the field computer asks for minutes. */
    send_all(hub, descriptor);
    owh_free(hub);
    close(descriptor);
    printf("%u of %u messages delivered\n", delivered, count);
    return delivered == count ? 0 : 1;
}
