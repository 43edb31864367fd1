#include <cbs_realtime.h>
#include <sched.h>
#include <stdio.h>

/* A job of ours. Its address is the token. */
struct job {
    const char *name;
    uint32_t units, done;
};

static struct job jobs[2];

struct sender {
    struct cbs_handle client; /* freed by the sender's thread */
    struct cbs_bell *bell;
    uint32_t status; /* of its last send */
};

/* Says what a status means, if it is not CBS_OK. Returns whether it is CBS_OK. */
static bool is_well(const char *who, uint32_t status) {
    char text[200];
    if (status != CBS_OK) {
        cbs_status_text(status, text, sizeof text);
        fprintf(stderr, "%s: %s\n", who, text);
    }
    return status == CBS_OK;
}

/* The sender's thread: it makes jobs and sends them. Freeing the client sends its end, also if a send was refused. */
static void *sends(void *of) {
    static const struct job wanted[2] = {{"wash", 2, 0}, {"dry", 1, 0}};
    struct sender *me = (struct sender *)of;
    for (int i = 0; i < 2 && me->status == CBS_OK; i++) {
        struct job *job = &jobs[i];
        uint64_t number;
        *job = wanted[i];
        CBS_TSAN_RELEASE(job);
        while ((me->status = cbs_realtime_send(me->bell, &me->client, (uintptr_t)job, job->units, &number)) == CBS_SEND_RING_FULL) {
            sched_yield();
        }
    }
    cbs_realtime_free(me->bell, &me->client);
    return NULL;
}

/* Does one unit of a job. */
static void does(void *context, const struct cbs_unit *unit) {
    struct job *job = (struct job *)(uintptr_t)unit->token;
    (void)context;
    CBS_TSAN_ACQUIRE(job);
    job->done++;
    printf("%s: %u of %u\n", job->name, (unsigned)job->done, (unsigned)job->units);
}

int main(void) {
    struct cbs_server servers[1] = {{2, 5, CBS_SOFT}}; /* 2 ticks in every 5 */
    struct cbs_handle house = CBS_HANDLE_INIT;
    struct cbs_bell bell;
    struct sender sender = {CBS_HANDLE_INIT, &bell, CBS_OK};
    struct cbs_realtime realtime = cbs_realtime_of(1000000, &bell, does, NULL); /* a tick is a millisecond */
    pthread_t thread;
    if (cbs_bell_open(&bell) != 0 || !is_well("open", cbs_open(servers, 1, 8, 8, &house, &sender.client, 1))) {
        return 1;
    }
    if (pthread_create(&thread, NULL, sends, &sender) != 0) {
        fprintf(stderr, "sender: there is no thread\n");
        return 1;
    }
    bool served = is_well("serve", cbs_realtime_run(&realtime, &house)); /* until the client is gone and its jobs are finished */
    cbs_free(&house); /* a sender that is still at work gets CBS_CALL_HOUSE_GONE, and ends */
    pthread_join(thread, NULL);
    cbs_bell_close(&bell);
    if (!is_well("sender", sender.status) || !served) {
        return 1;
    }
    printf("%llu units are done\n", (unsigned long long)realtime.counts.units);
    return 0;
}
