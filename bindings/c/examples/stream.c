#include <cbs.h>
#include <stdio.h>

/* A stream has 6 ticks in every 20, and a frame of 8 units every 20 ticks. Others take the rest. */
static const struct cbs_server servers[2] = {{6, 20, CBS_SOFT}, {14, 20, CBS_SOFT}};

int main(void) {
    struct cbs_handle house = CBS_HANDLE_INIT, clients[2] = {CBS_HANDLE_INIT, CBS_HANDLE_INIT};
    uint64_t now = 0, made = 0, begun = 0, number;
    unsigned in_time = 0, dropped = 0;
    if (cbs_open(servers, 2, 16, 16, &house, clients, 2) != CBS_OK) {
        return 1;
    }
    while (now < 5000) {
        struct cbs_turn turn;
        cbs_send(&clients[1], 0, 8, &number); /* the others: as much as fits */
        if (now >= made && cbs_send(&clients[0], made, 8, &number) == CBS_OK) {
            made += 20; /* the token is when the frame was made */
        }
        if (cbs_turn(&house, &turn) != CBS_OK || cbs_now(&house, &now) != CBS_OK) {
            return 1;
        }
        if (turn.ran.kind < CBS_RUN_UNIT || turn.ran.server != 0) {
            continue;
        }
        if (turn.ran.kind == CBS_RUN_DONE) {
            in_time += now <= turn.ran.token + 40;
        } else if (turn.ran.seq == begun) { /* the first unit of a frame */
            begun++;
            if (now > turn.ran.token + 15 && cbs_finish(&house, 0) == CBS_OK) {
                dropped++; /* it would be late: its other units are not run */
            }
        }
    }
    printf("of %u frames %u are in time, %u dropped\n", (unsigned)begun, in_time, dropped);
    cbs_free(&clients[0]);
    cbs_free(&clients[1]);
    cbs_free(&house);
    return 0;
}
