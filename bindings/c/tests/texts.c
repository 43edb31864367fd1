/* The number and the text of each status, written out by hand. scripts/embed_statuses reads this table. */
#include "check.h"
#include <string.h>

static const struct {
    uint32_t status, number;
    const char *text;
} STATUSES[] = {
    {CBS_OK, 0, "no error"},
    {CBS_RATE_ZERO_BUDGET, 0x101, "the budget is 0: a reservation needs a budget of at least 1 tick"},
    {CBS_RATE_PERIOD_TOO_LONG, 0x102, "the period is longer than 1000000000 ticks"},
    {CBS_RATE_BUDGET_OVER_PERIOD, 0x103, "the budget is larger than the period"},
    {CBS_RATE_BAD_BOUND, 0x104, "a bound N/D needs 1 <= N <= D <= 1000000"},
    {CBS_ADMIT_TOO_MANY_SERVERS, 0x201, "the plan has 64 servers already, and takes no more"},
    {CBS_ADMIT_PERIODS_TOO_FINE, 0x202, "the least common multiple of all periods would pass 10^18: choose periods that share more factors"},
    {CBS_ADMIT_OVER_BOUND, 0x203, "the total bandwidth would pass the plan's bound: a smaller budget or a longer period may fit"},
    {CBS_HOUSE_BAD_BACKLOG, 0x301, "the backlog is not within 1 to 4096 jobs"},
    {CBS_HOUSE_BAD_RING, 0x302, "the ring is not within 1 to 1024 messages"},
    {CBS_HOUSE_OUT_OF_MEMORY, 0x303, "out of memory"},
    {CBS_HOUSE_NO_SUCH_SERVER, 0x304, "there is no such server"},
    {CBS_HOUSE_CLOCK_END, 0x305, "the clock would pass its end, 1000000000000 ticks, or stands there with a job unfinished"},
    {CBS_HOUSE_STALLED, 0x306, "the clients did not send all in the rounds that they are given"},
    {CBS_HOUSE_NOT_RUNNING, 0x307, "the server did not run the last unit, or other ticks have passed since"},
    {CBS_TASK_EMPTY_JOB, 0x401, "the job is empty: a job has at least 1 unit"},
    {CBS_TASK_TOO_LONG, 0x402, "the job is too long: a job has at most 1000000 units"},
    {CBS_SEND_ENDED, 0x501, "the client has ended"},
    {CBS_SEND_RING_FULL, 0x502, "the ring is full"},
    {CBS_CALL_NOT_OPEN, 0x601, "the handle is not open"},
    {CBS_CALL_OTHER_KIND, 0x602, "the handle is of the other kind"},
    {CBS_CALL_WRONG_COUNT, 0x603, "there are not as many clients as servers"},
    {CBS_CALL_BAD_MODE, 0x604, "the mode is neither soft nor throttled"},
    {CBS_CALL_HOUSE_GONE, 0x605, "the client's house was freed"},
    {CBS_CALL_NO_TAPE, 0x606, "the house has no tape, or the place is shorter than its memory"},
};

/* Numbers that are no status, between the kinds of statuses and after their last. */
static const uint32_t NONE[] = {1, 0x100, 0x105, 0x200, 0x204, 0x300, 0x308, 0x400, 0x403, 0x500, 0x503, 0x600, 0x607, 0x701, UINT32_MAX};

/* Checks that a status has this text, all of it if there is room, else a prefix of it, with a zero byte after it, and that nothing is
 * written after that. */
static void has_text(uint32_t status, const char *text) {
    char all[128], front[8];
    size_t length = strlen(text);
    memset(all, '#', sizeof all);
    CHECK(cbs_status_text(status, all, sizeof all) == length && length < sizeof all);
    CHECK(strcmp(all, text) == 0);
    for (size_t i = length + 1; i < sizeof all; i++) {
        CHECK(all[i] == '#');
    }
    CHECK(cbs_status_text(status, all, length) == length && memcmp(all, text, length - 1) == 0 && all[length - 1] == 0);
    CHECK(cbs_status_text(status, all, length + 1) == length && strcmp(all, text) == 0 && all[length + 1] == '#');
    memset(front, '#', sizeof front);
    CHECK(cbs_status_text(status, front, 0) == length && front[0] == '#');
    CHECK(cbs_status_text(status, front, 1) == length && front[0] == 0 && front[1] == '#');
    CHECK(cbs_status_text(status, front, 3) == length && memcmp(front, text, 2) == 0 && front[2] == 0 && front[3] == '#');
    CHECK(cbs_status_text(status, front, sizeof front) == length && strncmp(front, text, sizeof front - 1) == 0);
    CHECK(front[sizeof front - 1] == 0);
}

int main(void) {
    for (size_t i = 0; i < sizeof STATUSES / sizeof STATUSES[0]; i++) {
        CHECK(STATUSES[i].status == STATUSES[i].number);
        has_text(STATUSES[i].status, STATUSES[i].text);
    }
    for (size_t i = 0; i < sizeof NONE / sizeof NONE[0]; i++) {
        has_text(NONE[i], "no such status");
    }
    puts("the text of each status: as it should be");
    return 0;
}
