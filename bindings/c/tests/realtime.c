/* What a house in real time costs, by cbs_realtime.h, and how well it keeps time: what scripts/realtime prints.
 *
 * Checked, with status 1 if it does not hold: a house that is idle uses less than 1 % of a processor, and each deadline pays for what
 * its server took. The other figures are printed only, since they are the machine's, too.
 *
 *     realtime [SECONDS]      so long for each figure; 2 if no number is given */
#include "cbs_realtime.h"
#include "check.h"

#define TICK 1000000 /* in nanoseconds */
#define MOST 200000  /* times are kept */

static struct {
    struct setup setup;
    struct cbs_bell bell;
    uint64_t lengths[2]; /* of the units of each server; the latency of those with length 0 is measured */
    uint64_t took, units, last, n;
    double times[MOST]; /* in microseconds */
} trial;

static double seconds = 2.0;

static void spin(uint64_t time) {
    for (uint64_t began = cbs_clock_now(); cbs_clock_now() - began < time;) {
    }
}

static void note(uint64_t time) {
    if (trial.n < MOST) {
        trial.times[trial.n++] = (double)time * 1e-3;
    }
}

/* A unit of the loads: it works for so long. */
static void works(void *context, const struct cbs_unit *unit) {
    uint64_t began = cbs_clock_now();
    (void)context;
    spin(trial.lengths[unit->server]);
    if (unit->server == 0) {
        trial.units++;
        trial.took += cbs_clock_now() - began;
    }
}

/* A unit of server 0 notes how long it is since its job was sent: the token is when. */
static void answers(void *context, const struct cbs_unit *unit) {
    if (unit->server == 0) {
        note(cbs_clock_now() - unit->token);
    } else {
        works(context, unit);
    }
}

/* A unit notes by how much it is not a tick after the one before. */
static void keeps_time(void *context, const struct cbs_unit *unit) {
    uint64_t now = cbs_clock_now(), apart = now - trial.last;
    (void)context;
    (void)unit;
    if (trial.last != 0) {
        note(apart > TICK ? apart - TICK : TICK - apart);
    }
    trial.last = now;
}

static int by_size(const void *a, const void *b) {
    double x = *(const double *)a, y = *(const double *)b;
    return (x > y) - (x < y);
}

static void print_spread(const char *name) {
    CHECK(trial.n > 0);
    qsort(trial.times, trial.n, sizeof trial.times[0], by_size);
    printf("%s: least %.1f, median %.1f, 99 %% %.1f, greatest %.1f us, of %llu\n", name, trial.times[0],
           trial.times[(trial.n - 1) / 2], trial.times[(trial.n - 1) * 99 / 100], trial.times[trial.n - 1],
           (unsigned long long)trial.n);
}

/* Tells the house to stop after so long. */
static void *stops(void *of) {
    (void)of;
    cbs_clock_sleep(cbs_clock_now() + (uint64_t)(seconds * 1e9));
    cbs_bell_stop(&trial.bell);
    return NULL;
}

/* Sends a job each 5 ms or so, until the house is gone. */
static void *sends(void *of) {
    uint64_t seq;
    (void)of;
    while (cbs_send(&trial.setup.clients[0], cbs_clock_now(), 1, &seq) == CBS_OK) {
        cbs_bell_ring(&trial.bell);
        cbs_clock_sleep(cbs_clock_now() + 5137000);
    }
    return NULL;
}

/* Opens a house, and sends jobs of so many units, if that is not 0. */
static void begin(const struct cbs_server *servers, size_t n, const uint32_t *units) {
    uint64_t seq;
    trial.took = trial.units = trial.last = trial.n = 0;
    set_up(&trial.setup, servers, n, 16, 16);
    CHECK(cbs_bell_open(&trial.bell) == 0);
    for (size_t i = 0; i < n; i++) {
        CHECK(units[i] == 0 || cbs_send(&trial.setup.clients[i], 0, units[i], &seq) == CBS_OK);
    }
}

/* Serves for so long. */
static struct cbs_realtime serve(void (*work)(void *context, const struct cbs_unit *unit), bool carry) {
    struct cbs_realtime realtime = cbs_realtime_of(TICK, &trial.bell, work, NULL);
    pthread_t stopper;
    realtime.carry = carry;
    CHECK(pthread_create(&stopper, NULL, stops, NULL) == 0);
    CHECK(cbs_realtime_run(&realtime, &trial.setup.house) == CBS_OK && !realtime.over);
    CHECK(pthread_join(stopper, NULL) == 0);
    return realtime;
}

static void end(void) {
    tear_down(&trial.setup);
    cbs_bell_close(&trial.bell);
}

/* How long this thread was on a processor. */
static uint64_t on_processor(void) {
    struct timespec at;
    CHECK(clock_gettime(CLOCK_THREAD_CPUTIME_ID, &at) == 0);
    return (uint64_t)at.tv_sec * 1000000000U + (uint64_t)at.tv_nsec;
}

static void idle(void) {
    static const struct cbs_server servers[2] = {{1, 100, CBS_THROTTLED}, {1, 2, CBS_SOFT}};
    static const char *const names[2] = {"nobody has a job", "all who have one wait"};
    for (int row = 0; row < 2; row++) {
        const uint32_t units[2] = {row == 0 ? 0U : 1000000U, 0};
        begin(servers, 2, units);
        uint64_t before = on_processor(), began = cbs_clock_now();
        serve(works, false);
        double share = (double)(on_processor() - before) / (double)(cbs_clock_now() - began);
        printf("idle, %s: %.3f %% of a processor\n", names[row], 100 * share);
        CHECK(share < 0.01);
        end();
    }
}

static void latency(void) {
    static const struct cbs_server servers[2] = {{2, 4, CBS_SOFT}, {1, 2, CBS_SOFT}};
    for (int loaded = 0; loaded < 2; loaded++) {
        const uint32_t units[2] = {0, loaded != 0 ? 1000000U : 0U};
        pthread_t sender;
        begin(servers, 2, units);
        trial.lengths[1] = TICK * 3 / 10;
        CHECK(pthread_create(&sender, NULL, sends, NULL) == 0);
        serve(answers, false);
        cbs_free(&trial.setup.house);
        CHECK(pthread_join(sender, NULL) == 0);
        print_spread(loaded != 0 ? "from send to first unit, loaded" : "from send to first unit, idle");
        end();
    }
}

/* The share of the wall clock of a throttled server with 1 tick in 10, beside a soft one with short units. */
static void share_of(uint64_t hundredths, bool carry) {
    static const struct cbs_server servers[2] = {{1, 10, CBS_THROTTLED}, {2, 10, CBS_SOFT}};
    static const uint32_t units[2] = {1000000, 1000000};
    struct cbs_view view;
    uint64_t charged, most;
    begin(servers, 2, units);
    trial.lengths[0] = TICK * hundredths / 100;
    trial.lengths[1] = TICK / 10;
    uint64_t began = cbs_clock_now();
    struct cbs_realtime realtime = serve(works, carry);
    printf("share of 1 tick in 10, units of %g ticks, rounding %s: %.2f %% of the time, most behind %llu\n",
           (double)hundredths / 100, carry ? "Carry" : "Up", 100.0 * (double)trial.took / (double)(cbs_clock_now() - began),
           (unsigned long long)realtime.counts.most_behind);
    CHECK(cbs_view(&trial.setup.house, 0, &view) == CBS_OK);
    CHECK(cbs_charges(&trial.setup.house, 0, &charged, &most) == CBS_OK);
    CHECK((trial.units + charged + view.budget) * 10 <= view.deadline_low);
    end();
}

static void jitter(void) {
    static const struct cbs_server servers[1] = {{1, 1, CBS_SOFT}};
    static const uint32_t units[1] = {1000000};
    begin(servers, 1, units);
    serve(keeps_time, false);
    print_spread("jitter at 1 kHz");
    end();
}

int main(int count, char **words) {
    static const uint64_t hundredths[3] = {30, 199, 2000};
    seconds = count > 1 ? atof(words[1]) : seconds;
    idle();
    latency();
    for (int row = 0; row < 6; row++) {
        share_of(hundredths[row % 3], row >= 3);
    }
    jitter();
    return 0;
}
