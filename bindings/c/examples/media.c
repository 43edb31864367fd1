/* A media pipeline on one encoding thread: three producers make frames on threads of their own, and send them as they go.
 *
 * A frame has 256 x 256 pixels and is encoded in eight slices, each a unit: a cosine transform of its blocks, quantised, the bits
 * counted. Two producers are decent, with 25 and 50 frames a second. The third is greedy: it makes frames as fast as its ring
 * takes them, and has each slice encoded ten times over. A tick is a millisecond, and it pays for what its units take beyond that.
 *
 * Checked, with status 1 if it does not hold: each frame is encoded once and in order, and each deadline pays for what its server
 * took, charges too. Measured and printed only: times.
 *
 *     media [SECONDS]      2 if no number is given */
#include "cbs_realtime.h"
#include <math.h>
#include <stdio.h>
#include <stdlib.h>

#define SIDE 256
#define SLICES 8
#define BLOCKS (SIDE * SIDE / 64 / SLICES) /* of a slice */
#define PRODUCERS 3
#define MUST(condition) ((condition) ? (void)0 : fail(__LINE__, #condition))

static void fail(int line, const char *condition) {
    fprintf(stderr, "media: line %d: not so: %s\n", line, condition);
    exit(1);
}

/* A frame: the job's token is its address. Its producer makes it, the encoder frees it after the last slice. */
struct frame {
    uint64_t number, made, bits;
    unsigned slices; /* how many are encoded */
    unsigned char pixels[SIDE * SIDE];
};

/* What a producer is, what its thread counts, and what the encoder counts of it. */
struct producer {
    const char *name;
    uint64_t every;           /* nanoseconds between two frames; 0 for as fast as it goes */
    unsigned passes;          /* how often each slice is encoded */
    struct cbs_handle client; /* given to its thread */
    uint64_t sent, dropped, units, frames, longest;
};

static const struct cbs_server servers[PRODUCERS] = {{8, 40, CBS_SOFT}, {8, 20, CBS_SOFT}, {1, 10, CBS_SOFT}};
static struct producer producers[PRODUCERS] = {{"25 a second", 40000000, 1, CBS_HANDLE_INIT, 0, 0, 0, 0, 0},
                                               {"50 a second", 20000000, 1, CBS_HANDLE_INIT, 0, 0, 0, 0, 0},
                                               {"the greedy one", 0, 10, CBS_HANDLE_INIT, 0, 0, 0, 0, 0}};
static double cosines[64][64]; /* of each frequency, at each pixel */
static uint64_t until;
static struct cbs_bell bell;

/* How many bits the numbers of a block of 64 pixels would take, after they are transformed and quantised. */
static uint64_t encode_block(const unsigned char *pixels) {
    uint64_t bits = 0;
    for (int frequency = 0; frequency < 64; frequency++) {
        double sum = 0;
        for (int pixel = 0; pixel < 64; pixel++) {
            sum += cosines[frequency][pixel] * (pixels[pixel] - 128);
        }
        bits += (uint64_t)log2(1 + fabs(sum) / (8 + 4 * (frequency / 8 + frequency % 8)));
    }
    return bits;
}

/* A new frame: moving stripes and some noise, block after block. */
static struct frame *make_frame(uint64_t number) {
    struct frame *frame = (struct frame *)calloc(1, sizeof *frame);
    uint32_t noise = (uint32_t)number * 2654435761U + 1;
    MUST(frame != NULL);
    for (uint32_t i = 0; i < SIDE * SIDE; i++) {
        noise = noise * 1664525U + 1013904223U;
        frame->pixels[i] = (unsigned char)((i / 8 % 8 + i % 8 + number * 3) * 8 % 192 + (noise >> 26));
    }
    frame->number = number;
    frame->made = cbs_clock_now();
    return frame;
}

/* Makes frames and sends them. What finds no place in the ring is dropped by a decent producer, whose next frame is newer; the
 * greedy one tries again. */
static void *produce(void *of) {
    struct producer *me = (struct producer *)of;
    struct frame *frame = NULL;
    for (uint64_t next = cbs_clock_now(), seq; next < until; next = me->every != 0 ? next + me->every : cbs_clock_now() + 500000) {
        cbs_clock_sleep(next);
        frame = frame != NULL ? frame : make_frame(me->sent);
        CBS_TSAN_RELEASE(frame);
        if (cbs_realtime_send(&bell, &me->client, (uintptr_t)frame, SLICES, &seq) == CBS_OK) {
            MUST(seq == me->sent++);
            frame = NULL;
        }
        me->dropped += frame != NULL && me->every != 0;
    }
    free(frame);
    cbs_realtime_free(&bell, &me->client); /* sends the end */
    return NULL;
}

/* Encodes the next slice of the frame to which the token points. */
static void encode(void *context, const struct cbs_unit *unit) {
    struct producer *producer = (struct producer *)context + unit->server;
    struct frame *frame = (struct frame *)(uintptr_t)unit->token;
    CBS_TSAN_ACQUIRE(frame);
    MUST(frame->number == unit->seq && unit->seq == producer->frames);
    for (unsigned i = 0; i < BLOCKS * producer->passes; i++) {
        frame->bits += encode_block(&frame->pixels[64 * (frame->slices * BLOCKS + i % BLOCKS)]);
    }
    producer->units++;
    MUST((unit->kind == CBS_RUN_DONE) == (++frame->slices == SLICES));
    if (unit->kind == CBS_RUN_DONE) {
        uint64_t waited = cbs_clock_now() - frame->made;
        producer->frames++;
        producer->longest = waited > producer->longest ? waited : producer->longest;
        free(frame);
    }
}

/* Prints what a producer got, and checks that all was done, and paid for. */
static void report(struct cbs_handle *house, uint16_t server) {
    const struct producer *it = &producers[server];
    struct cbs_view view;
    uint64_t now, took = 0, most;
    MUST(cbs_now(house, &now) == CBS_OK && cbs_view(house, server, &view) == CBS_OK && cbs_charges(house, server, &took, &most) == CBS_OK);
    took += it->units;
    printf("%-14s %4llu frames, %llu dropped; got %4.1f %% of the ticks; ready after at most %.1f ms\n", it->name,
           (unsigned long long)it->frames, (unsigned long long)it->dropped, 100.0 * (double)took / (double)now, 1e-6 * (double)it->longest);
    MUST(it->frames == it->sent && view.accepted == it->frames && it->units == SLICES * it->frames);
    MUST((took + view.budget) * servers[server].period <= view.deadline_low * servers[server].budget);
}

int main(int count, char **words) {
    struct cbs_handle house = CBS_HANDLE_INIT, clients[PRODUCERS] = {CBS_HANDLE_INIT, CBS_HANDLE_INIT, CBS_HANDLE_INIT};
    struct cbs_realtime realtime = cbs_realtime_of(1000000, &bell, encode, producers);
    pthread_t threads[PRODUCERS];
    for (int i = 0; i < 64 * 64; i++) {
        cosines[i / 64][i % 64] = cos((i % 8 + 0.5) * (i / 64 % 8) * 0.392699081698724) * cos((i / 8 % 8 + 0.5) * (i / 512) * 0.392699081698724) / 4;
    }
    until = cbs_clock_now() + (uint64_t)((count > 1 ? atof(words[1]) : 2.0) * 1e9);
    MUST(cbs_bell_open(&bell) == 0 && cbs_open(servers, PRODUCERS, 8, 4, &house, clients, PRODUCERS) == CBS_OK);
    for (int i = 0; i < PRODUCERS; i++) {
        producers[i].client = clients[i]; /* moved: clients[i] is no handle any more */
        MUST(pthread_create(&threads[i], NULL, produce, &producers[i]) == 0);
    }
    MUST(cbs_realtime_run(&realtime, &house) == CBS_OK);
    for (uint16_t i = 0; i < PRODUCERS; i++) {
        MUST(pthread_join(threads[i], NULL) == 0);
        report(&house, i);
    }
    cbs_free(&house);
    cbs_bell_close(&bell);
    return 0;
}
