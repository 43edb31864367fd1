/* cbs_record: the steps of a house of cbs.h in a file, which `cbsrun replay FILE` makes again. All of it stands in this header,
 * over C's stdio.
 *
 *     struct cbs_recorder recorder;       opened before the first step; a tick is 1 ms
 *     cbs_record_open(&recorder, &house, "run.tape", servers, 2, 16, names, 1000000, 65536);
 *     recorder.every = 100;               writes at most each 100 ticks
 *     ..                                  serve; now and then, and at least once for each 65536 bytes of steps:
 *     cbs_record_step(&recorder, &house);
 *     ..
 *     int error = cbs_record_close(&recorder, &house);
 *
 * A loop of cbs_realtime.h takes the steps itself, if its field `recorder` is set. With cbs_record_thread.h a thread writes the
 * file, and the serving thread never waits for it.
 *
 * The file is a record with a tape: a text that says what the servers are, and then a byte or two for each step, in blocks with a
 * sum each. So a byte that is changed later is told. What cbs_record_step wrote is in the file also if the process is killed then;
 * what it did not write is lost with the process. An error of the file ends the recording, and never the house. It wants C99 or
 * C++17. */
#ifndef CBS_RECORD_H
#define CBS_RECORD_H

#include "cbs.h"
#include <errno.h>
#include <inttypes.h>
#include <stdio.h>
#include <stdlib.h>
#include <string.h>

/* Of a block, beside its n bytes of steps: their length in 4 bytes before them, and a sum in 4 bytes after them. */
#define CBS_RECORD_AROUND 8
/* How many bytes of steps a block has at most. */
#define CBS_RECORD_MOST 0xFFFFFFU

/* The CRC-32 of what a file has, but for the sums in it. */
struct cbs_record_sum {
    uint32_t shares[256]; /* what each byte brings into it */
    uint32_t value;
};

/* A file that the steps of a house go to. The fields are the header's, but for `every`, which may be set, and `error`, `lost` and
 * `bytes`, which may be read. */
struct cbs_recorder {
    uint64_t every; /* at least so many ticks pass between two writes of cbs_record_step; 0, as it is opened: it writes each time */
    FILE *file;      /* NULL: nothing is recorded any more */
    uint8_t *buffer; /* a block: as many bytes as the tape has, and those around them */
    size_t size;     /* of the tape */
    struct cbs_record_sum sum;
    int error;      /* the error number that ended the recording; 0: none did */
    bool lost;      /* after the close: whether a step was lost, so that the file has only those before it */
    uint64_t bytes; /* how many bytes of steps are in the file */
    uint64_t next;  /* the tick from which on cbs_record_step writes again */
    /* Of cbs_record_thread.h: the thread that writes, and how it is given steps and ends. NULL: the calls here write. */
    void *thread;
    bool (*give)(struct cbs_recorder *recorder, struct cbs_handle *house);
    void (*join)(struct cbs_recorder *recorder, struct cbs_handle *house);
};

/* Begins the sum of no byte, as section 8 of RFC 1952 has it. */
static inline void cbs_record_sum_begin(struct cbs_record_sum *sum) {
    for (uint32_t byte = 0; byte < 256; byte++) {
        uint32_t share = byte;
        for (int bit = 0; bit < 8; bit++) {
            share = (share & 1) != 0 ? 0xEDB88320U ^ (share >> 1) : share >> 1;
        }
        sum->shares[byte] = share;
    }
    sum->value = 0;
}

static inline void cbs_record_sum_add(struct cbs_record_sum *sum, const void *bytes, size_t n) {
    const uint8_t *added = CBS_CAST(const uint8_t *, bytes);
    uint32_t value = ~sum->value;
    for (size_t i = 0; i < n; i++) {
        value = sum->shares[(value ^ added[i]) & 255] ^ (value >> 8);
    }
    sum->value = ~value;
}

/* Writes a block, whose n bytes of steps stand 4 bytes from its begin. Returns 0, or an error number. The length has 3 bytes, the
 * lowest first, and one more, so that the four come to 255 by exclusive or. */
static inline int cbs_record_put(FILE *file, struct cbs_record_sum *sum, uint8_t *block, size_t n) {
    for (size_t i = 0; i < 3; i++) {
        block[i] = CBS_CAST(uint8_t, (n >> (8 * i)) & 255);
    }
    block[3] = CBS_CAST(uint8_t, block[0] ^ block[1] ^ block[2] ^ 255);
    cbs_record_sum_add(sum, block, 4 + n);
    for (size_t i = 0; i < 4; i++) {
        block[4 + n + i] = CBS_CAST(uint8_t, (sum->value >> (8 * i)) & 255);
    }
    errno = 0;
    if (fwrite(block, 1, n + CBS_RECORD_AROUND, file) == n + CBS_RECORD_AROUND && fflush(file) == 0) {
        return 0;
    }
    return errno != 0 ? errno : EIO;
}

/* Writes the name of server i: names[i], or server-I if there is none. */
static inline void cbs_record_name(char *out, size_t n, const char *const *names, size_t i) {
    if (names != NULL && names[i] != NULL) {
        snprintf(out, n, "%s", names[i]);
    } else {
        snprintf(out, n, "server-%" PRIu64, CBS_CAST(uint64_t, i));
    }
}

/* Whether each of the n servers has a name that a record may have, and that no server before it has. */
static inline bool cbs_record_are_names(const char *const *names, size_t n) {
    char own[34], other[34]; /* a name of more than 32 bytes is cut, and refused */
    for (size_t i = 0; i < n; i++) {
        cbs_record_name(own, sizeof own, names, i);
        size_t length = strlen(own);
        if (length < 1 || length > 32 ||
            strspn(own, "ABCDEFGHIJKLMNOPQRSTUVWXYZabcdefghijklmnopqrstuvwxyz0123456789-_") != length) {
            return false;
        }
        for (size_t before = 0; before < i; before++) {
            cbs_record_name(other, sizeof other, names, before);
            if (strcmp(own, other) == 0) {
                return false;
            }
        }
    }
    return true;
}

/* Writes some of the text of a record. An error is told by the block after it. */
static inline void cbs_record_text(FILE *file, struct cbs_record_sum *sum, const char *text) {
    cbs_record_sum_add(sum, text, strlen(text));
    fputs(text, file);
}

/* Writes the text of a record, the byte that ends it, and a block with no steps, so that the text has a sum. Returns 0, or an error
 * number. */
static inline int cbs_record_head(FILE *file, struct cbs_record_sum *sum, const struct cbs_server *servers, size_t n, size_t backlog,
                                  const char *const *names, uint64_t tick) {
    char line[160];
    uint8_t none[CBS_RECORD_AROUND];
    cbs_record_text(file, sum, "record = 1\n");
    if (tick == 1000000000U) {
        cbs_record_text(file, sum, "tick = \"1 s\"\n");
    } else if (tick > 0) {
        snprintf(line, sizeof line, "tick = \"%" PRIu64 " ns\"\n", tick);
        cbs_record_text(file, sum, line);
    }
    snprintf(line, sizeof line, "bound = [1, 1]\nbacklog = %" PRIu64 "\nserver = [\n", CBS_CAST(uint64_t, backlog));
    cbs_record_text(file, sum, line);
    for (size_t i = 0; i < n; i++) {
        const char *mode = servers[i].mode == CBS_THROTTLED ? "throttled" : "soft";
        char name[34];
        cbs_record_name(name, sizeof name, names, i);
        snprintf(line, sizeof line, "  { name = \"%s\", mode = \"%s\", budget = %" PRIu64 ", period = %" PRIu64 " },\n", name, mode,
                 servers[i].budget, servers[i].period);
        cbs_record_text(file, sum, line);
    }
    cbs_record_text(file, sum, "]\n\3");
    return cbs_record_put(file, sum, none, 0);
}

/* Whether the house has n servers, and made no step yet. */
static inline bool cbs_record_is_new(struct cbs_handle *house, size_t n) {
    struct cbs_view view;
    uint64_t now = 0;
    if (cbs_now(house, &now) != CBS_OK || now > 0 || cbs_view(house, CBS_CAST(uint16_t, n), &view) == CBS_OK) {
        return false;
    }
    for (size_t i = 0; i < n; i++) {
        if (cbs_view(house, CBS_CAST(uint16_t, i), &view) != CBS_OK || view.accepted > 0 || view.closed) {
            return false;
        }
    }
    return true;
}

/* Ends the recording by an error, and gives it back. The house has no tape any more. */
static inline int cbs_record_fail(struct cbs_recorder *recorder, struct cbs_handle *house, int error) {
    if (recorder->file != NULL) {
        fclose(recorder->file);
        cbs_tape_close(house);
    }
    free(recorder->buffer);
    recorder->file = NULL;
    recorder->buffer = NULL;
    recorder->error = error != 0 ? error : EIO;
    return recorder->error;
}

/* Opens a file, which is written anew, and has the house tell its steps from now on: call this before its first step. The servers and
 * the backlog are those with which the house was opened. names[i] is the name of server i, of 1 to 32 letters, digits,
 * - and _, which no other server has; without one (NULL, also for all of them) the server is called server-I. A tick is so many
 * nanoseconds long, at most 10^9; 0: that is not told. The steps between two calls of cbs_record_step may take so many bytes, at
 * most 16777184: a step takes 20 at most, and mostly 1 or 2.
 *
 * Returns 0, or an error number: EINVAL for a wrong name or tick or too many bytes, and if the house is not open, made a step before, or has not so
 * many servers; ENOMEM, or what stdio gave. Then nothing is recorded, and the other calls do nothing. */
static inline int cbs_record_open(struct cbs_recorder *recorder, struct cbs_handle *house, const char *path,
                                  const struct cbs_server *servers, size_t n, size_t backlog, const char *const *names,
                                  uint64_t tick, uint32_t bytes) {
    memset(recorder, 0, sizeof *recorder);
    if (tick > 1000000000U || bytes > CBS_RECORD_MOST - 31 || !cbs_record_are_names(names, n) || !cbs_record_is_new(house, n)) {
        return recorder->error = EINVAL;
    }
    recorder->size = CBS_CAST(size_t, bytes) + 31;
    recorder->buffer = CBS_CAST(uint8_t *, malloc(recorder->size + CBS_RECORD_AROUND));
    if (recorder->buffer == NULL) {
        return cbs_record_fail(recorder, house, ENOMEM);
    }
    uint32_t status = cbs_tape_open(house, bytes);
    if (status != CBS_OK) {
        return cbs_record_fail(recorder, house, status == CBS_HOUSE_OUT_OF_MEMORY ? ENOMEM : EINVAL);
    }
    errno = 0;
    recorder->file = fopen(path, "wb");
    if (recorder->file == NULL) {
        int error = errno;
        cbs_tape_close(house);
        return cbs_record_fail(recorder, house, error);
    }
    cbs_record_sum_begin(&recorder->sum);
    int error = cbs_record_head(recorder->file, &recorder->sum, servers, n, backlog, names, tick);
    return error == 0 ? 0 : cbs_record_fail(recorder, house, error);
}

/* Writes the steps that the house made since the last write. */
static inline void cbs_record_write(struct cbs_recorder *recorder, struct cbs_handle *house) {
    size_t length = 0;
    if (recorder->file == NULL || cbs_tape_take(house, recorder->buffer + 4, recorder->size, &length) != CBS_OK || length == 0) {
        return;
    }
    int error = cbs_record_put(recorder->file, &recorder->sum, recorder->buffer, length);
    if (error != 0) {
        cbs_record_fail(recorder, house, error);
        return;
    }
    recorder->bytes += length;
}

/* Writes the steps that the house made since the last write, if `every` ticks have passed. By the serving thread, between two
 * calls of the house. It takes no memory, and waits as long as one write to the file does; with cbs_record_thread.h not at all. */
static inline void cbs_record_step(struct cbs_recorder *recorder, struct cbs_handle *house) {
    uint64_t now = 0;
    if (recorder->file == NULL || cbs_now(house, &now) != CBS_OK || now < recorder->next) {
        return;
    }
    if (recorder->thread == NULL) {
        cbs_record_write(recorder, house);
    } else if (!recorder->give(recorder, house)) {
        return; /* the next step tries again */
    }
    recorder->next = now + recorder->every;
}

/* Writes the last steps, and the mark of the end, unless a step was lost. Closes the file, and the house goes on with no tape.
 * Returns 0, or the error number that ended the recording, now or before. */
static inline int cbs_record_close(struct cbs_recorder *recorder, struct cbs_handle *house) {
    if (recorder->thread != NULL) {
        recorder->join(recorder, house);
    }
    cbs_record_write(recorder, house);
    if (recorder->file == NULL) {
        return recorder->error;
    }
    FILE *file = recorder->file;
    uint8_t mark[1 + CBS_RECORD_AROUND];
    mark[4] = CBS_TAPE_END;
    errno = 0;
    bool written = cbs_tape_lost(house, &recorder->lost) == CBS_OK &&
                   (recorder->lost || cbs_record_put(file, &recorder->sum, mark, 1) == 0);
    written = fclose(file) == 0 && written;
    int error = written ? 0 : errno;
    cbs_tape_close(house);
    free(recorder->buffer);
    recorder->file = NULL;
    recorder->buffer = NULL;
    recorder->error = written ? 0 : error != 0 ? error : EIO;
    return recorder->error;
}

#endif
