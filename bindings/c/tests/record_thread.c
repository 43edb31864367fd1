/* cbs_record_thread.h: the file beside one that the serving thread writes; a pipe that nobody reads for a while, so that steps
 * are lost; files that fail; and a house that is killed while it records (with the word "for-ever" and a path). */
#if !defined(_POSIX_C_SOURCE)
#define _POSIX_C_SOURCE 200809L
#endif
#include "cbs_realtime.h"
#include "cbs_record_thread.h"
#include "blocks.h"
#include "check.h"
#include <fcntl.h>
#include <sys/resource.h>
#include <sys/stat.h>
#include <unistd.h>

static const struct cbs_server servers[1] = {{2, 5, CBS_SOFT}};
static const char head[] = "record = 1\nbound = [1, 1]\nbacklog = 4\nserver = [\n"
                           "  { name = \"server-0\", mode = \"soft\", budget = 2, period = 5 },\n]\n\3";
#define HEAD (sizeof head - 1)
static char path[64];

/* A house that is recorded by a thread. */
struct recorded {
    struct setup setup;
    struct cbs_recorder recorder;
    struct cbs_record_thread thread;
};

/* Opens a house, and its recording. With 0 blocks the serving thread writes. */
static void begins(struct recorded *it, uint32_t bytes, uint32_t blocks) {
    set_up(&it->setup, servers, 1, 4, 4);
    CHECK(cbs_record_open(&it->recorder, &it->setup.house, path, servers, 1, 4, NULL, 0, bytes) == 0);
    CHECK(blocks == 0 || cbs_record_thread_open(&it->thread, &it->recorder, blocks) == 0);
}

static void steps(struct recorded *it) {
    cbs_record_step(&it->recorder, &it->setup.house);
}

static int ends(struct recorded *it) {
    return cbs_record_close(&it->recorder, &it->setup.house);
}

static bool has_no_tape(struct recorded *it) {
    bool lost;
    return cbs_tape_lost(&it->setup.house, &lost) == CBS_CALL_NO_TAPE;
}

/* A job, its two units, and what passes. */
static void does_a_round(struct recorded *it, uint64_t seq) {
    submit(&it->setup, 0, 7, 2, seq);
    runs(&it->setup, CBS_RUN_UNIT, 0, seq, 7);
    CHECK(cbs_charge(&it->setup.house, 0, seq % 3) == CBS_OK);
    runs(&it->setup, CBS_RUN_DONE, 0, seq, 7);
    CHECK(cbs_advance(&it->setup.house, seq % 7) == CBS_OK);
}

/* Steps until the thread has told so many bytes, or an error. */
static void is_told(struct recorded *it, uint64_t bytes) {
    struct timespec pause = {0, 100000};
    while (it->recorder.bytes < bytes && it->recorder.error == 0) {
        nanosleep(&pause, NULL);
        steps(it);
    }
}

/* Reads the steps that a file has. Returns how many bytes they are. */
static size_t reads(uint8_t *steps) {
    static uint8_t bytes[65536];
    FILE *file = fopen(path, "rb");
    CHECK(file != NULL);
    size_t length = fread(bytes, 1, sizeof bytes, file);
    fclose(file);
    CHECK(length >= HEAD && memcmp(bytes, head, HEAD) == 0);
    return steps_in(bytes, length, HEAD, steps);
}

/* Records 2000 rounds. Returns how many bytes of steps the file has, which are left at `bytes`. */
static size_t records(uint32_t blocks, uint64_t every, uint8_t *bytes) {
    struct recorded it;
    begins(&it, 65536, blocks); /* the tape has room for all, so no step is lost */
    it.recorder.every = every;
    for (uint64_t seq = 0; seq < 2000; seq++) {
        does_a_round(&it, seq);
        steps(&it);
    }
    CHECK(ends(&it) == 0 && !it.recorder.lost && has_no_tape(&it) && ends(&it) == 0);
    size_t length = reads(bytes);
    CHECK(length == it.recorder.bytes + 1 && bytes[length - 1] == CBS_TAPE_END);
    tear_down(&it.setup);
    return length;
}

static void writes_what_the_serving_thread_writes(void) {
    static uint8_t wanted[65536], bytes[65536];
    size_t length = records(0, 0, wanted);
    for (uint32_t blocks = 1; blocks <= 4; blocks++) {
        for (uint64_t every = 0; every <= 100; every += 50) {
            CHECK(records(blocks, every, bytes) == length && memcmp(bytes, wanted, length) == 0);
        }
    }
}

/* A pipe in the place of the file. Returns the end that is read. */
static int opens_a_pipe(void) {
    remove(path);
    CHECK(mkfifo(path, 0600) == 0);
    int end = open(path, O_RDONLY | O_NONBLOCK);
    CHECK(end >= 0 && fcntl(end, F_SETFL, 0) == 0);
    return end;
}

/* Fills a pipe until it takes no byte. Returns how many bytes these are. */
static size_t fills(void) {
    static const uint8_t zeros[4096] = {0};
    size_t filled = 0;
    int end = open(path, O_WRONLY | O_NONBLOCK);
    CHECK(end >= 0);
    for (size_t n = sizeof zeros; n > 0; n = n > 1 ? 1 : 0) {
        while (write(end, zeros, n) == CBS_CAST(ssize_t, n)) {
            filled += n;
        }
    }
    close(end);
    return filled;
}

/* What came out of a pipe. */
struct drained {
    int end;
    size_t length;
    uint8_t bytes[1 << 20];
};

static void *drains(void *of) {
    struct drained *it = CBS_CAST(struct drained *, of);
    ssize_t n = 1;
    while (n > 0) {
        n = read(it->end, it->bytes + it->length, sizeof it->bytes - it->length);
        it->length += n > 0 ? CBS_CAST(size_t, n) : 0;
    }
    return NULL;
}

/* A pipe that is full takes nothing until somebody reads: a step that waited for it would wait for ever. */
static void never_waits_for_the_file(void) {
    static struct drained drained;
    static uint8_t steps_there[1 << 20];
    struct recorded it;
    pthread_t reader;
    drained.end = opens_a_pipe();
    begins(&it, 1000, 2);
    size_t before = HEAD + 8 + fills(); /* the text, and a block with no steps */
    bool lost = false;
    uint64_t made = 0;
    while (!lost) {
        CHECK(cbs_advance(&it.setup.house, 1 + made++ % 250) == CBS_OK);
        steps(&it);
        CHECK(cbs_tape_lost(&it.setup.house, &lost) == CBS_OK);
    }
    for (uint64_t seq = 0; seq < 1000; seq++) { /* the house goes on */
        does_a_round(&it, seq);
        steps(&it);
    }
    CHECK(it.recorder.error == 0 && it.recorder.bytes == 0);
    CHECK(pthread_create(&reader, NULL, drains, &drained) == 0);
    CHECK(ends(&it) == 0 && it.recorder.lost && it.recorder.bytes == 2 * (made - 1));
    CHECK(pthread_join(reader, NULL) == 0 && close(drained.end) == 0);
    uint32_t sum = sum_after(0, drained.bytes, HEAD + 4); /* of the text, and of the length of no steps */
    size_t length = steps_after(sum, drained.bytes + before, drained.length - before, steps_there);
    CHECK(length == it.recorder.bytes); /* all but the step that was lost, and no mark */
    for (size_t step = 0; step < made - 1; step++) {
        CHECK(steps_there[2 * step] == 2 && steps_there[2 * step + 1] == 1 + step % 250);
    }
    remove(path);
    tear_down(&it.setup);
}

/* A file with room for two bytes of steps, and for a part of the next block. The thread takes no signal, so SIGXFSZ does not end the program. */
static void goes_on_when_the_file_is_full(void) {
    static const uint8_t wanted[] = {0x40, 0x03};
    uint8_t bytes[100];
    struct recorded it;
    struct rlimit before, small;
    CHECK(getrlimit(RLIMIT_FSIZE, &before) == 0);
    small = before;
    small.rlim_cur = HEAD + 8 + 2 + 8 + 5;
    CHECK(setrlimit(RLIMIT_FSIZE, &small) == 0);
    begins(&it, 100, 2);
    submit(&it.setup, 0, 7, 3, 0);
    steps(&it);
    is_told(&it, 2);
    CHECK(it.recorder.error == 0);
    runs(&it.setup, CBS_RUN_UNIT, 0, 0, 7);
    steps(&it);
    is_told(&it, 3);
    CHECK(it.recorder.error == EFBIG && it.recorder.bytes == 2 && has_no_tape(&it));
    runs(&it.setup, CBS_RUN_UNIT, 0, 0, 7);
    steps(&it);
    CHECK(ends(&it) == EFBIG && ends(&it) == EFBIG && it.recorder.thread == NULL);
    CHECK(setrlimit(RLIMIT_FSIZE, &before) == 0);
    CHECK(reads(bytes) == 2 && memcmp(bytes, wanted, 2) == 0);
    tear_down(&it.setup);
}

/* A pipe whose reader goes away. No step comes after the error, so the close tells it; nor does SIGPIPE end the program. */
static void tells_an_error_at_the_close(void) {
    struct recorded it;
    int end = opens_a_pipe();
    begins(&it, 100, 1);
    close(end);
    does_a_round(&it, 0);
    steps(&it);
    CHECK(it.recorder.error == 0);
    CHECK(ends(&it) == EPIPE && it.recorder.error == EPIPE && it.recorder.bytes == 0 && has_no_tape(&it));
    does_a_round(&it, 1);
    remove(path);
    tear_down(&it.setup);
}

/* What is refused leaves a recording as it was. */
static void refuses_what_is_no_thread(void) {
    uint8_t bytes[100];
    struct recorded it;
    struct cbs_record_thread other;
    begins(&it, 100, 0);
    CHECK(cbs_record_thread_open(&it.thread, &it.recorder, 0) == EINVAL);
    CHECK(cbs_record_thread_open(&it.thread, &it.recorder, UINT32_MAX) == EINVAL);
    does_a_round(&it, 0);
    steps(&it);
    CHECK(it.recorder.bytes == 3); /* by the serving thread */
    CHECK(cbs_record_thread_open(&it.thread, &it.recorder, 1) == 0);
    CHECK(cbs_record_thread_open(&other, &it.recorder, 1) == EINVAL);
    CHECK(cbs_advance(&it.setup.house, 5) == CBS_OK && ends(&it) == 0 && it.recorder.bytes == 5);
    CHECK(reads(bytes) == 6);
    CHECK(cbs_record_thread_open(&it.thread, &it.recorder, 1) == EINVAL);
    CHECK(cbs_record_open(&it.recorder, &it.setup.house, "/dev/full", servers, 1, 4, NULL, 0, 100) == EINVAL);
    tear_down(&it.setup);
    set_up(&it.setup, servers, 1, 4, 4);
    CHECK(cbs_record_open(&it.recorder, &it.setup.house, "/dev/full", servers, 1, 4, NULL, 0, 100) == ENOSPC);
    CHECK(cbs_record_thread_open(&it.thread, &it.recorder, 1) == EINVAL && ends(&it) == ENOSPC);
    tear_down(&it.setup);
}

static void works(void *context, const struct cbs_unit *unit) {
    (void)context;
    (void)unit;
}

/* A loop in real time: a job of 3 units, and then the end. */
static void a_loop_gives_its_steps(void) {
    uint8_t bytes[100];
    struct recorded it;
    struct cbs_bell bell;
    begins(&it, 100, 2);
    CHECK(cbs_bell_open(&bell) == 0);
    send_job(&it.setup.clients[0], 7, 3, 0);
    cbs_free(&it.setup.clients[0]);
    struct cbs_realtime realtime = cbs_realtime_of(1500, &bell, works, NULL);
    realtime.recorder = &it.recorder;
    CHECK(cbs_realtime_run(&realtime, &it.setup.house) == CBS_OK && realtime.over);
    CHECK(ends(&it) == 0 && it.recorder.bytes >= 5); /* a job, units, and an end */
    size_t length = reads(bytes);
    CHECK(length == it.recorder.bytes + 1 && bytes[length - 1] == CBS_TAPE_END);
    cbs_bell_close(&bell);
    tear_down(&it.setup);
}

/* Records until it is killed: jobs, units, ticks and charges. The thread has time to write. */
static void for_ever(void) {
    struct timespec pause = {0, 50000};
    struct recorded it;
    begins(&it, 1000000, 2);
    for (uint64_t seq = 0;; seq++) {
        does_a_round(&it, seq);
        steps(&it);
        CHECK(it.recorder.error == 0);
        if (seq % 100 == 0) {
            nanosleep(&pause, NULL);
        }
    }
}

int main(int argc, char **argv) {
    if (argc == 3 && strcmp(argv[1], "for-ever") == 0) {
        snprintf(path, sizeof path, "%s", argv[2]);
        for_ever();
    }
    alarm(100); /* whoever waits for ever is ended */
    snprintf(path, sizeof path, "/tmp/cbs-record-thread-%ld", (long)getpid());
    writes_what_the_serving_thread_writes();
    never_waits_for_the_file();
    goes_on_when_the_file_is_full();
    tells_an_error_at_the_close();
    refuses_what_is_no_thread();
    a_loop_gives_its_steps();
    remove(path);
    puts("cbs_record_thread.h: what the serving thread writes, and no wait; steps that are lost, and files that fail");
    return 0;
}
