/* Serves a load with four sender threads, and writes the results of each server as cbsrun serve does. It reads
 *
 *     SEED BACKLOG RING
 *     server BUDGET PERIOD soft|throttled      for each server
 *     job SERVER sum|peak NUMBER..             for each job, in the order of submits
 *
 * from standard input; scripts/embed_loads makes such loads. The senders rest at random, by the seed. */
#define _POSIX_C_SOURCE 200112L
#include "check.h"
#include <pthread.h>
#include <sched.h>
#include <string.h>

#define SERVERS 64
#define SENDERS 4
#define UNITS 8

struct job {
    struct job *next; /* of the same server */
    uint32_t units, done;
    uint64_t numbers[UNITS];
    uint64_t result;
    bool is_peak;
};

static struct cbs_server servers[SERVERS];
static struct cbs_handle clients[SERVERS];
static struct job *unsent[SERVERS];
static struct job **last[SERVERS];
static uint64_t *results[SERVERS];
static size_t counts[SERVERS];
static size_t n;
static unsigned long seed;

static void read_server(char *words) {
    char mode[16];
    unsigned long budget, period;
    CHECK(n < SERVERS && sscanf(words, "%lu %lu %15s", &budget, &period, mode) == 3);
    servers[n].budget = budget;
    servers[n].period = period;
    servers[n].mode = strcmp(mode, "soft") == 0 ? CBS_SOFT : CBS_THROTTLED;
    last[n] = &unsent[n];
    n++;
}

static void read_job(char *words) {
    struct job *job = (struct job *)calloc(1, sizeof *job);
    unsigned long server = strtoul(words, &words, 10);
    char kind[8];
    int length;
    CHECK(job != NULL && server < n && sscanf(words, " %7s%n", kind, &length) == 1);
    job->is_peak = strcmp(kind, "peak") == 0;
    char *rest = words + length, *end;
    for (uint64_t number = strtoull(rest, &end, 10); end != rest; number = strtoull(rest, &end, 10)) {
        CHECK(job->units < UNITS);
        job->numbers[job->units++] = number;
        rest = end;
    }
    *last[server] = job;
    last[server] = &job->next;
    counts[server]++;
}

/* Sends the next message of a server, if its ring has a place. Returns whether all is sent. */
static bool sends_one(size_t server, bool *ended) {
    struct job *job = unsent[server];
    if (*ended) {
        return true;
    }
    uint64_t seq;
    struct job *next = job != NULL ? job->next : NULL;
    uint32_t status = job != NULL ? cbs_send(&clients[server], (uintptr_t)job, job->units, &seq) : cbs_end(&clients[server]);
    CHECK(status == CBS_OK || status == CBS_SEND_RING_FULL);
    if (status == CBS_OK) {
        unsent[server] = next;
        *ended = job == NULL;
    }
    return *ended;
}

/* A sender of the clients number, number + 4, .. */
static void *sends(void *of) {
    size_t number = *(size_t *)of;
    bool ended[SERVERS] = {false};
    uint32_t random = (uint32_t)seed * 2654435761U + (uint32_t)number;
    bool over = false;
    while (!over) {
        over = true;
        for (size_t server = number; server < n; server += SENDERS) {
            over = sends_one(server, &ended[server]) && over;
            random = random * 1664525U + 1013904223U;
            for (uint32_t i = random >> 30; i < 2; i++) {
                sched_yield();
            }
        }
    }
    for (size_t server = number; server < n; server += SENDERS) {
        cbs_free(&clients[server]);
    }
    return NULL;
}

static void does(const struct cbs_unit *unit) {
    struct job *job = (struct job *)(uintptr_t)unit->token;
    uint64_t number = job->numbers[job->done++];
    job->result = job->is_peak ? (number > job->result ? number : job->result) : job->result + number;
    CHECK((unit->kind == CBS_RUN_DONE) == (job->done == job->units));
    if (unit->kind == CBS_RUN_DONE) {
        CHECK(unit->seq < counts[unit->server]);
        results[unit->server][unit->seq] = job->result;
        free(job);
    }
}

static void serve(struct cbs_handle *house) {
    struct cbs_turn turn;
    do {
        CHECK(cbs_turn(house, &turn) == CBS_OK && turn.ran.kind != CBS_RUN_CLOCK_END);
        if (turn.ran.kind >= CBS_RUN_UNIT) {
            does(&turn.ran);
        } else if (turn.took == 0 && turn.advanced == 0) {
            sched_yield();
        }
    } while (!turn.over);
    for (size_t server = 0; server < n; server++) {
        struct cbs_view view;
        CHECK(cbs_view(house, (uint16_t)server, &view) == CBS_OK);
        CHECK(view.closed && view.finished == counts[server]);
    }
}

static void write_results(void) {
    for (size_t server = 0; server < n; server++) {
        printf("server %zu:", server);
        for (size_t i = 0; i < counts[server]; i++) {
            printf(" %llu", (unsigned long long)results[server][i]);
        }
        printf("\n");
        free(results[server]);
    }
}

int main(void) {
    static char line[4096];
    unsigned long backlog, ring;
    struct cbs_handle house = CBS_HANDLE_INIT;
    pthread_t threads[SENDERS];
    size_t numbers[SENDERS];
    CHECK(fgets(line, sizeof line, stdin) != NULL && sscanf(line, "%lu %lu %lu", &seed, &backlog, &ring) == 3);
    while (fgets(line, sizeof line, stdin) != NULL) {
        if (strncmp(line, "server ", 7) == 0) {
            read_server(line + 7);
        } else {
            CHECK(strncmp(line, "job ", 4) == 0);
            read_job(line + 4);
        }
    }
    for (size_t server = 0; server < n; server++) {
        results[server] = (uint64_t *)calloc(counts[server] + 1, sizeof(uint64_t));
        CHECK(results[server] != NULL);
    }
    CHECK(cbs_open(servers, n, backlog, ring, &house, clients, n) == CBS_OK);
    for (size_t i = 0; i < SENDERS; i++) {
        numbers[i] = i;
        CHECK(pthread_create(&threads[i], NULL, sends, &numbers[i]) == 0);
    }
    serve(&house);
    for (size_t i = 0; i < SENDERS; i++) {
        CHECK(pthread_join(threads[i], NULL) == 0);
    }
    write_results();
    cbs_free(&house);
    return 0;
}
