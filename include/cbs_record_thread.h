/* cbs_record_thread: a thread that writes a recording of cbs_record.h, so that the serving thread never waits for the file. All
 * of it stands in this header, over POSIX: link with -lpthread.
 *
 *     struct cbs_recorder recorder;
 *     struct cbs_record_thread thread;
 *     cbs_record_open(&recorder, &house, "run.tape", servers, 2, 16, names, 1000000, 65536);
 *     int error = cbs_record_thread_open(&thread, &recorder, 4);      4 blocks of 65536 bytes
 *     ..                                     serve, as with no thread
 *     error = cbs_record_close(&recorder, &house);
 *
 * cbs_record_step then moves the bytes of the house's tape into a free block, and the thread writes that. If no block is free the
 * bytes stay on the tape, until a later step. If the tape gets full meanwhile steps are lost, which `lost` tells after the close:
 * the file then has only the steps before.
 *
 * cbs_record_step takes no lock and no memory, and makes no call that waits. cbs_record_close waits until all is written. What
 * the thread has not written is lost if the process is killed. An error of the file ends the recording: a later step sees it, and
 * the house goes on with no tape. Close such a recording, too: that ends the thread.
 *
 * Include this header first, or define _POSIX_C_SOURCE as 200809L before. It wants gcc or clang, in C99 or C++17. */
#ifndef CBS_RECORD_THREAD_H
#define CBS_RECORD_THREAD_H

#if defined(__STRICT_ANSI__) && !defined(_POSIX_C_SOURCE) && !defined(_GNU_SOURCE)
#define _POSIX_C_SOURCE 200809L
#endif
#include "cbs_record.h"
#include <pthread.h>
#include <semaphore.h>
#include <signal.h>
#ifndef SIG_SETMASK
#error "include cbs_record_thread.h first, or define _POSIX_C_SOURCE as 200809L"
#endif

/* A thread that writes a recording. The fields are the header's. It stays where it is until the recording is closed. */
struct cbs_record_thread {
    pthread_t id;
    FILE *file;
    struct cbs_record_sum sum; /* of the file; the thread's until it has ended */
    uint8_t *memory;           /* the blocks, one after another */
    size_t *lengths;           /* how many bytes of steps each block has; of one that was given none ends the thread */
    size_t size;               /* of a block, with what stands around its steps */
    uint32_t blocks; /* how many there are; they are given and written in turn */
    uint32_t next;   /* the one that is given next, by the serving thread */
    sem_t given;     /* counts the blocks that the thread was given and has not taken */
    sem_t free;      /* counts those that are free */
    uint64_t bytes;  /* atomic: how many bytes of steps the thread wrote */
    int error;       /* atomic: the error number of the file, which the thread has closed then; 0: none */
};

static inline void cbs_record_thread_wait(sem_t *counted) {
    while (sem_wait(counted) != 0 && errno == EINTR) {
    }
}

/* Writes the bytes of a block, unless the file had an error. After an error it closes the file. By the thread. */
static inline void cbs_record_thread_write(struct cbs_record_thread *self, size_t block) {
    if (self->error != 0) {
        return;
    }
    int error = cbs_record_put(self->file, &self->sum, self->memory + block * self->size, self->lengths[block]);
    if (error == 0) {
        __atomic_store_n(&self->bytes, self->bytes + self->lengths[block], __ATOMIC_RELEASE);
    } else {
        fclose(self->file);
        __atomic_store_n(&self->error, error, __ATOMIC_RELEASE);
    }
}

/* Takes the blocks that it is given, in turn, until one has no byte. After an error it writes none, and frees them. */
static inline void *cbs_record_thread_run(void *of) {
    struct cbs_record_thread *self = CBS_CAST(struct cbs_record_thread *, of);
    for (size_t block = 0;; block = (block + 1) % self->blocks) {
        cbs_record_thread_wait(&self->given);
        if (self->lengths[block] == 0) {
            return NULL;
        }
        cbs_record_thread_write(self, block);
        sem_post(&self->free);
    }
}

/* Reads what the thread has told. An error ends the recording, and the house has no tape any more. */
static inline void cbs_record_thread_look(struct cbs_record_thread *self, struct cbs_recorder *recorder,
                                          struct cbs_handle *house) {
    int error = __atomic_load_n(&self->error, __ATOMIC_ACQUIRE);
    recorder->bytes = __atomic_load_n(&self->bytes, __ATOMIC_ACQUIRE);
    if (error != 0 && recorder->file != NULL) {
        recorder->file = NULL;
        cbs_tape_close(house);
        cbs_record_fail(recorder, house, error);
    }
}

/* Gives the thread the next block, with the bytes that the tape has. Returns false if none is free, or an error was told. */
static inline bool cbs_record_thread_give(struct cbs_recorder *recorder, struct cbs_handle *house) {
    struct cbs_record_thread *self = CBS_CAST(struct cbs_record_thread *, recorder->thread);
    cbs_record_thread_look(self, recorder, house);
    if (recorder->file == NULL || sem_trywait(&self->free) != 0) {
        return false;
    }
    size_t *length = &self->lengths[self->next];
    uint8_t *steps = self->memory + self->next * self->size + 4;
    if (cbs_tape_take(house, steps, self->size - CBS_RECORD_AROUND, length) == CBS_OK && *length > 0) {
        self->next = (self->next + 1) % self->blocks;
        sem_post(&self->given);
    } else {
        sem_post(&self->free);
    }
    return true;
}

static inline void cbs_record_thread_free(struct cbs_record_thread *self) {
    sem_destroy(&self->given);
    sem_destroy(&self->free);
    free(self->memory);
    free(self->lengths);
}

/* Waits until the thread has written each block that it was given, and ends it. The calls of cbs_record.h write then. */
static inline void cbs_record_thread_join(struct cbs_recorder *recorder, struct cbs_handle *house) {
    struct cbs_record_thread *self = CBS_CAST(struct cbs_record_thread *, recorder->thread);
    cbs_record_thread_wait(&self->free);
    self->lengths[self->next] = 0;
    sem_post(&self->given);
    pthread_join(self->id, NULL);
    recorder->sum = self->sum;
    cbs_record_thread_look(self, recorder, house);
    cbs_record_thread_free(self);
    recorder->thread = NULL;
}

/* Takes the memory of the blocks, and touches it, so that the serving thread waits for no page. Returns whether it is there. */
static inline bool cbs_record_thread_memory(struct cbs_record_thread *self) {
    if (self->blocks > SIZE_MAX / self->size) {
        return false;
    }
    self->memory = CBS_CAST(uint8_t *, malloc(self->blocks * self->size));
    self->lengths = CBS_CAST(size_t *, calloc(self->blocks, sizeof *self->lengths));
    if (self->memory == NULL || self->lengths == NULL) {
        return false;
    }
    memset(self->memory, 1, self->blocks * self->size);
    return true;
}

/* Begins the thread. It takes no signal. The program's go to its other threads, and those of the file are its errors. */
static inline int cbs_record_thread_begin(struct cbs_record_thread *self) {
    sigset_t all, before;
    sigfillset(&all);
    pthread_sigmask(SIG_SETMASK, &all, &before);
    int error = pthread_create(&self->id, NULL, cbs_record_thread_run, self);
    pthread_sigmask(SIG_SETMASK, &before, NULL);
    return error;
}

/* Has a thread write an open recording from now on. It has so many blocks of memory, each as large as the tape: the more there
 * are, the longer may the file take. The thread inherits the priority and the processors of the caller: call this before the
 * serving thread takes its own. cbs_record_close alone ends the thread.
 *
 * Returns 0, or an error number: EINVAL for no block or 2^31 of them, and if nothing is recorded or a thread writes already;
 * ENOMEM, or that of pthread_create. The recording is then as before. */
static inline int cbs_record_thread_open(struct cbs_record_thread *thread, struct cbs_recorder *recorder, uint32_t blocks) {
    if (recorder->file == NULL || recorder->thread != NULL || blocks == 0 || blocks > INT32_MAX) {
        return EINVAL;
    }
    memset(thread, 0, sizeof *thread);
    thread->file = recorder->file;
    thread->sum = recorder->sum;
    thread->bytes = recorder->bytes;
    thread->size = recorder->size + CBS_RECORD_AROUND;
    thread->blocks = blocks;
    sem_init(&thread->given, 0, 0);
    sem_init(&thread->free, 0, blocks);
    int error = cbs_record_thread_memory(thread) ? cbs_record_thread_begin(thread) : ENOMEM;
    if (error != 0) {
        cbs_record_thread_free(thread);
        return error;
    }
    recorder->thread = thread;
    recorder->give = cbs_record_thread_give;
    recorder->join = cbs_record_thread_join;
    return 0;
}

#endif
