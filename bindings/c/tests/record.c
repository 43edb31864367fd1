/* cbs_record.h: the file by hand, in pieces; names and ticks that no record may have; files that fail; and a house that is killed
 * while it records (with the word "for-ever" and a path). */
#if !defined(_POSIX_C_SOURCE)
#define _POSIX_C_SOURCE 200809L
#endif
#include "cbs_realtime.h"
#include "blocks.h"
#include "check.h"
#include <signal.h>
#include <sys/resource.h>
#include <unistd.h>

static const struct cbs_server servers[2] = {{2, 5, CBS_SOFT}, {2, 5, CBS_THROTTLED}};
static const char *const names[2] = {"control", NULL};
static const char head[] = "record = 1\ntick = \"1500 ns\"\nbound = [1, 1]\nbacklog = 4\nserver = [\n"
                           "  { name = \"control\", mode = \"soft\", budget = 2, period = 5 },\n"
                           "  { name = \"server-1\", mode = \"throttled\", budget = 2, period = 5 },\n]\n\3";
#define HEAD (sizeof head - 1)
static char path[64];

/* Reads the file, which has to have the head. Returns how many bytes it has. */
static size_t reads(uint8_t *bytes, size_t n) {
    FILE *file = fopen(path, "rb");
    CHECK(file != NULL);
    size_t length = fread(bytes, 1, n, file);
    fclose(file);
    CHECK(length >= HEAD && memcmp(bytes, head, HEAD) == 0);
    return length;
}

/* Checks that the blocks of the file have these bytes of steps. */
static void holds(const uint8_t *wanted, size_t n) {
    uint8_t bytes[1000], steps[1000];
    size_t length = reads(bytes, sizeof bytes);
    CHECK(steps_in(bytes, length, HEAD, steps) == n && memcmp(steps, wanted, n) == 0);
}

static int opens(struct cbs_recorder *recorder, struct setup *setup, uint32_t bytes) {
    return cbs_record_open(recorder, &setup->house, path, servers, 2, 4, names, 1500, bytes);
}

static bool has_no_tape(struct setup *setup) {
    bool lost;
    return cbs_tape_lost(&setup->house, &lost) == CBS_CALL_NO_TAPE;
}

/* The sums are those of Python's zlib.crc32. */
static void writes_each_step(void) {
    static const uint8_t steps[] = {0x40, 0x03, 0xC0, 0x02, 0xFD, 0x2C, 0x01, 0x04};
    static const uint8_t blocks[] = {0x00, 0x00, 0x00, 0xFF, 0xCC, 0x7E, 0x18, 0xC6, 0x03, 0x00, 0x00, 0xFC, 0x40, 0x03,
                                     0xC0, 0x98, 0x84, 0xC4, 0x99, 0x04, 0x00, 0x00, 0xFB, 0x02, 0xFD, 0x2C, 0x01, 0x89,
                                     0xBB, 0xFC, 0x51, 0x01, 0x00, 0x00, 0xFE, 0x04, 0x5E, 0x2B, 0xEB, 0x1F};
    uint8_t bytes[1000];
    struct setup setup;
    struct cbs_recorder recorder;
    set_up(&setup, servers, 2, 4, 4);
    CHECK(opens(&recorder, &setup, 100) == 0);
    holds(steps, 0);
    submit(&setup, 0, 7, 3, 0);
    runs(&setup, CBS_RUN_UNIT, 0, 0, 7);
    cbs_record_step(&recorder, &setup.house);
    cbs_record_step(&recorder, &setup.house);
    holds(steps, 3);
    CHECK(cbs_advance(&setup.house, 300) == CBS_OK && recorder.bytes == 3);
    CHECK(cbs_record_close(&recorder, &setup.house) == 0 && !recorder.lost);
    holds(steps, sizeof steps);
    CHECK(reads(bytes, sizeof bytes) == HEAD + sizeof blocks && memcmp(bytes + HEAD, blocks, sizeof blocks) == 0);
    CHECK(has_no_tape(&setup) && cbs_record_close(&recorder, &setup.house) == 0);
    tear_down(&setup);
}

/* Nothing is written before so many ticks have passed. */
static void writes_seldom(void) {
    static const uint8_t steps[] = {0x02, 0x07, 0x02, 0x02, 0x02, 0x01, 0x02, 0x09, 0x04};
    struct setup setup;
    struct cbs_recorder recorder;
    set_up(&setup, servers, 2, 4, 4);
    CHECK(opens(&recorder, &setup, 100) == 0);
    recorder.every = 10;
    CHECK(cbs_advance(&setup.house, 7) == CBS_OK);
    cbs_record_step(&recorder, &setup.house); /* the first call writes */
    holds(steps, 2);
    CHECK(cbs_advance(&setup.house, 2) == CBS_OK && cbs_advance(&setup.house, 1) == CBS_OK);
    cbs_record_step(&recorder, &setup.house); /* 3 ticks later */
    holds(steps, 2);
    CHECK(cbs_advance(&setup.house, 9) == CBS_OK);
    cbs_record_step(&recorder, &setup.house); /* 12 ticks later */
    holds(steps, 8);
    CHECK(cbs_record_close(&recorder, &setup.house) == 0);
    holds(steps, sizeof steps);
    tear_down(&setup);
}

static void leaves_no_mark_after_a_loss(void) {
    static const uint8_t steps[] = {0x02, 0x07};
    struct setup setup;
    struct cbs_recorder recorder;
    set_up(&setup, servers, 2, 4, 4);
    CHECK(opens(&recorder, &setup, 0) == 0);
    CHECK(cbs_advance(&setup.house, 7) == CBS_OK && cbs_advance(&setup.house, 7) == CBS_OK);
    CHECK(cbs_record_close(&recorder, &setup.house) == 0 && recorder.lost);
    holds(steps, sizeof steps);
    tear_down(&setup);
}

static void refuses_what_no_record_may_have(void) {
    static const char *const wrong[][2] = {
        {"a", "a"}, {"a", ""}, {"a b", "c"}, {"a", "abcdefghijklmnopqrstuvwxyz_0123456"}, {"server-1", NULL}};
    struct setup setup;
    struct cbs_recorder recorder;
    set_up(&setup, servers, 2, 4, 4);
    remove(path);
    for (size_t i = 0; i < sizeof wrong / sizeof *wrong; i++) {
        CHECK(cbs_record_open(&recorder, &setup.house, path, servers, 2, 4, wrong[i], 0, 100) == EINVAL);
        cbs_record_step(&recorder, &setup.house);
        CHECK(cbs_record_close(&recorder, &setup.house) == EINVAL);
    }
    CHECK(cbs_record_open(&recorder, &setup.house, path, servers, 2, 4, NULL, 1000000001, 100) == EINVAL);
    CHECK(opens(&recorder, &setup, 16777185) == EINVAL && opens(&recorder, &setup, UINT32_MAX) == EINVAL);
    CHECK(access(path, F_OK) != 0 && has_no_tape(&setup));
    struct cbs_handle shut = SHUT;
    CHECK(cbs_record_open(&recorder, &shut, path, servers, 2, 4, NULL, 0, 100) == EINVAL);
    CHECK(cbs_record_open(&recorder, &setup.house, "no/such/folder", servers, 2, 4, NULL, 0, 100) == ENOENT);
    CHECK(cbs_record_open(&recorder, &setup.house, "/dev/full", servers, 2, 4, NULL, 0, 100) == ENOSPC);
    CHECK(cbs_record_close(&recorder, &setup.house) == ENOSPC && has_no_tape(&setup));
    tear_down(&setup);
}

/* A job that was taken, a tick that passed, and a client that ended; and other numbers of servers. */
static void refuses_a_house_that_made_a_step(void) {
    for (int step = 0; step < 3; step++) {
        struct setup setup;
        struct cbs_recorder recorder;
        set_up(&setup, servers, 2, 4, 4);
        for (size_t n = 0; n <= 3; n++) {
            CHECK((cbs_record_open(&recorder, &setup.house, path, servers, n, 4, NULL, 0, 100) == 0) == (n == 2));
            CHECK(cbs_record_close(&recorder, &setup.house) == (n == 2 ? 0 : EINVAL));
        }
        if (step == 0) {
            submit(&setup, 1, 7, 3, 0);
        } else if (step == 1) {
            CHECK(cbs_advance(&setup.house, 1) == CBS_OK);
        } else {
            uint32_t kind;
            CHECK(cbs_end(&setup.clients[1]) == CBS_OK && cbs_poll(&setup.house, 1, &kind) == CBS_OK && kind == CBS_POLL_CLOSED);
        }
        CHECK(opens(&recorder, &setup, 100) == EINVAL && has_no_tape(&setup));
        tear_down(&setup);
    }
}

/* A file with room for the first two bytes of steps, and for a part of the next block. */
static void goes_on_when_the_file_is_full(void) {
    static const uint8_t steps[] = {0x40, 0x03};
    struct setup setup;
    struct cbs_recorder recorder;
    struct rlimit before, small;
    set_up(&setup, servers, 2, 4, 4);
    CHECK(getrlimit(RLIMIT_FSIZE, &before) == 0);
    small = before;
    small.rlim_cur = HEAD + 8 + 2 + 8 + 5;
    signal(SIGXFSZ, SIG_IGN);
    CHECK(setrlimit(RLIMIT_FSIZE, &small) == 0);
    CHECK(opens(&recorder, &setup, 100) == 0);
    submit(&setup, 0, 7, 3, 0);
    cbs_record_step(&recorder, &setup.house);
    CHECK(recorder.error == 0);
    runs(&setup, CBS_RUN_UNIT, 0, 0, 7);
    cbs_record_step(&recorder, &setup.house);
    CHECK(recorder.error == EFBIG && recorder.bytes == 2 && has_no_tape(&setup));
    runs(&setup, CBS_RUN_UNIT, 0, 0, 7);
    cbs_record_step(&recorder, &setup.house);
    CHECK(cbs_record_close(&recorder, &setup.house) == EFBIG);
    CHECK(setrlimit(RLIMIT_FSIZE, &before) == 0);
    holds(steps, sizeof steps);
    tear_down(&setup);
}

static void works(void *context, const struct cbs_unit *unit) {
    (void)context;
    (void)unit;
}

/* A loop in real time: a job of 3 units, and then the end. */
static void a_loop_writes_its_steps(void) {
    struct setup setup;
    struct cbs_recorder recorder;
    struct cbs_bell bell;
    set_up(&setup, servers, 2, 4, 4);
    CHECK(opens(&recorder, &setup, 100) == 0 && cbs_bell_open(&bell) == 0);
    send_job(&setup.clients[0], 7, 3, 0);
    cbs_free(&setup.clients[0]);
    cbs_free(&setup.clients[1]);
    struct cbs_realtime realtime = cbs_realtime_of(1500, &bell, works, NULL);
    realtime.recorder = &recorder;
    CHECK(cbs_realtime_run(&realtime, &setup.house) == CBS_OK && realtime.over);
    CHECK(cbs_record_close(&recorder, &setup.house) == 0 && recorder.bytes >= 9); /* a job, three units, two ends */
    cbs_bell_close(&bell);
    tear_down(&setup);
}

/* Records until it is killed: jobs, units, ticks and charges. */
static void for_ever(void) {
    struct setup setup;
    struct cbs_recorder recorder;
    set_up(&setup, servers, 2, 4, 4);
    CHECK(opens(&recorder, &setup, 4000) == 0);
    for (uint64_t seq = 0;; seq++) {
        submit(&setup, 0, 7, 2, seq);
        runs(&setup, CBS_RUN_UNIT, 0, seq, 7);
        CHECK(cbs_charge(&setup.house, 0, seq % 3) == CBS_OK);
        runs(&setup, CBS_RUN_DONE, 0, seq, 7);
        CHECK(cbs_advance(&setup.house, seq % 7) == CBS_OK);
        cbs_record_step(&recorder, &setup.house);
        CHECK(recorder.error == 0);
    }
}

int main(int argc, char **argv) {
    if (argc == 3 && strcmp(argv[1], "for-ever") == 0) {
        snprintf(path, sizeof path, "%s", argv[2]);
        for_ever();
    }
    snprintf(path, sizeof path, "/tmp/cbs-record-%ld", (long)getpid());
    writes_each_step();
    writes_seldom();
    leaves_no_mark_after_a_loss();
    refuses_what_no_record_may_have();
    refuses_a_house_that_made_a_step();
    goes_on_when_the_file_is_full();
    a_loop_writes_its_steps();
    remove(path);
    puts("cbs_record.h: the head, each step, and files that fail");
    return 0;
}
