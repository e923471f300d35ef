/* Refuses each device call in turn of two groups, an archive with a group beside it, a reclaim, a floor and a growth,
 * and opens what is left: refused FOLDER, one that is there; each trial has a folder of its own in it. */
#include "check.h"
#include "faults.h"
#include <errno.h>
#include <sys/stat.h>

/* What was answered until the refusal: the commits whose tickets were redeemed as done, and the floor. */
typedef struct outcome {
    int done;
    int raised;
    int refused;
} outcome;

static const uint64_t LASTS[] = {0, 101, 201, 301};
static const char *const TEXTS[][2] = {{NULL, NULL}, {"a", "b"}, {"c", "d"}, {"e", "f"}};

static void submit_two(ts *h, int group, uint64_t *tickets) {
    uint64_t now = LASTS[group] - 1;
    tickets[0] = submit_text(h, 7, TEXTS[group][0], 9, now);
    tickets[1] = submit_text(h, 8, TEXTS[group][1], 9, now + 1);
}

static void redeem_two(ts *h, const uint64_t *tickets, outcome *so_far) {
    ts_info info;
    for (int i = 0; i < 2; i++) {
        int32_t answer = ts_redeem(h, tickets[i], &info);
        if (answer == TS_OK) so_far->done++;
        else {
            CHECK(TS_IN_DOUBT, answer);
            so_far->refused = 1;
        }
    }
}

/* A transaction that was open meanwhile is over once it is submitted, also after a refused call. */
static int flush_two(ts_file *file, int group, outcome *so_far) {
    ts *h = ts_file_store(file);
    ts_info info;
    uint64_t tickets[2];
    CHECK(TS_OK, ts_begin(h, &info));
    uint64_t open = info.a;
    put_text(h, open, 9, "open");
    submit_two(h, group, tickets);
    int32_t code = ts_file_flush(file);
    redeem_two(h, tickets, so_far);
    HOLDS((code == TS_OK) == !so_far->refused);
    if (code == TS_OK) CHECK(TS_OK, ts_abort(h, open));
    else CHECK(TS_FAILED, ts_submit(h, open, 9, 0, &info));
    CHECK(TS_UNKNOWN, ts_submit(h, open, 9, 0, &info));
    return code == TS_OK;
}

/* Steps of the job and of the group beside it, in turn, until there is none. */
static int32_t step_both(ts_file *file) {
    ts_info job = {TS_WROTE, 0}, group = {TS_WROTE, 0};
    int32_t code = TS_OK;
    while ((job.a != TS_IDLE || group.a != TS_IDLE) && (code == TS_OK || code == TS_BUSY)) {
        code = ts_file_job_pump(file, &job);
        if (code == TS_OK || code == TS_BUSY) code = ts_file_pump(file, &group);
    }
    return code;
}

/* An archive with the third group beside it, a reclaim, a floor and a growth. */
static void make_jobs(ts_file *file, outcome *so_far) {
    ts *h = ts_file_store(file);
    ts_info info;
    uint64_t tickets[2];
    CHECK(TS_OK, ts_archive(h, 200, &info));
    submit_two(h, 3, tickets);
    int32_t code = step_both(file);
    redeem_two(h, tickets, so_far);
    if (code == TS_OK) {
        CHECK(TS_OK, ts_reclaim(h, &info));
        code = ts_file_job(file);
    }
    if (code == TS_OK) {
        CHECK(TS_OK, ts_floor_of(h, 1, 101, &info));
        code = ts_file_job(file);
        so_far->raised = code == TS_OK;
    }
    if (code == TS_OK) {
        CHECK(TS_OK, ts_grow(h, &info));
        code = ts_file_job(file);
    }
    if (code != TS_OK) CHECK(TS_FAILED, code);
    so_far->refused = code != TS_OK;
}

/* Whether a record has this text at a time, in what is published now. */
static int file_has(ts_file *file, uint64_t record, uint64_t time, const char *text) {
    ts *h = ts_file_store(file);
    uint8_t value[TS_VALUE_MOST], wanted[258];
    const uint8_t *archive;
    size_t len, wanted_len = value_of(text, wanted);
    ts_info view, info;
    CHECK(TS_OK, ts_view(h, &view));
    CHECK(TS_OK, ts_file_archive(file, &archive, &len));
    CHECK(TS_OK, ts_at(h, view.a, 1, record, time, archive, len, value, sizeof value, &info));
    CHECK(TS_OK, ts_end(h, view.a));
    return info.a == wanted_len && memcmp(value, wanted, wanted_len) == 0;
}

/* Of the label that all commits have: the times of so many groups. */
static void has_times(ts *h, int groups) {
    ts_info info;
    uint64_t times[8];
    CHECK(TS_OK, ts_times_of(h, 9, NONE, times, 8, &info));
    HOLDS(info.a == (uint64_t)(2 * groups));
    for (int group = 1; group <= groups; group++)
        HOLDS(times[2 * group - 2] == LASTS[group] - 1 && times[2 * group - 1] == LASTS[group]);
}

/* After the refusal: nothing is written, and what was published before answers. */
static void after_refusal(ts_file *file, int done, uint64_t old_view) {
    ts *h = ts_file_store(file);
    ts_info info, view, last;
    CHECK(TS_FAILED, ts_begin(h, &info));
    CHECK(TS_FAILED, ts_pump(h, &info));
    CHECK(TS_FAILED, ts_archive(h, 1, &info));
    CHECK(TS_OK, ts_last(h, &last));
    HOLDS(last.a == LASTS[done / 2] && last.b == 0);
    CHECK(TS_FAILED, ts_floor_of(h, 1, 1, &info));
    CHECK(TS_FAILED, ts_grow(h, &info));
    CHECK(TS_OK, ts_view(h, &view));
    HOLDS(has_text(h, view.a, 7, last.a, TEXTS[done / 2][0]));
    CHECK(TS_OK, ts_end(h, view.a));
    HOLDS(has_text(h, old_view, 7, 0, NULL));
    has_times(h, done / 2);
}

/* The calls, with the one of this number refused; how many were made. */
static outcome trial(const char *folder, uint64_t refuse) {
    ts_file *file;
    ts_info info, view;
    outcome so_far = {0, 0, 0};
    CHECK(TS_OK, ts_file_format(folder, 64));
    CHECK(TS_OK, ts_file_open(folder, &file, &info));
    ts *h = ts_file_store(file);
    CHECK(TS_OK, ts_view(h, &view));
    faults_refuse(refuse, EIO);
    if (flush_two(file, 1, &so_far) && flush_two(file, 2, &so_far)) make_jobs(file, &so_far);
    if (so_far.refused) after_refusal(file, so_far.done, view.a);
    faults_refuse(0, 0);
    ts_file_close(file);
    return so_far;
}

/* What is left opens, with every commit and the floor that were done, and the groups whole. */
static void reopened(const char *folder, outcome was) {
    ts_file *file;
    ts_info info;
    CHECK(TS_OK, ts_file_open(folder, &file, &info));
    ts *h = ts_file_store(file);
    HOLDS(info.b == 0);
    uint64_t floor = floor_now(h);
    HOLDS(floor == 101 || (floor == 0 && !was.raised));
    int groups = (int)(info.a / 100);
    HOLDS(groups <= 3 && info.a == LASTS[groups] && was.done <= 2 * groups);
    has_times(h, groups);
    for (int group = 1; group <= groups; group++)
        HOLDS(file_has(file, 7, LASTS[group], TEXTS[group][0]) && file_has(file, 8, LASTS[group], TEXTS[group][1]));
    uint64_t ticket = submit_text(h, 7, "later", 9, 400);
    CHECK(TS_OK, ts_file_flush(file));
    CHECK(TS_OK, ts_redeem(h, ticket, &info));
    HOLDS(now_has(h, 7, 400, "later"));
    ts_file_close(file);
}

/* The making of a store whose log lies in the heap, with each of its calls refused. It is made when it is asked for again,
   or stands there already where the last sync of its header was refused; then it opens. */
static uint64_t refused_formats(const char *top) {
    char folder[4096];
    uint64_t call = 0;
    int32_t code;
    do {
        ts_file *file;
        ts_info info;
        snprintf(folder, sizeof folder, "%s/format%" PRIu64, top, ++call);
        HOLDS(mkdir(folder, 0777) == 0);
        faults_refuse(call, EIO);
        code = ts_file_format_endless(folder, 64);
        faults_refuse(0, 0);
        if (code != TS_OK) {
            CHECK(TS_SYSTEM, code);
            HOLDS(errno == EIO);
            code = ts_file_format_endless(folder, 64);
            HOLDS(code == TS_OK || code == TS_OCCUPIED);
            code = TS_SYSTEM;
        }
        CHECK(TS_OK, ts_file_open(folder, &file, &info));
        HOLDS(info.a == 0 && commit_text(file, 7, "a", 9, 100) == 100);
        ts_file_close(file);
    } while (code != TS_OK);
    return call - 1;
}

int main(int argc, char **argv) {
    if (argc != 2) return 2;
    uint64_t call = 0;
    outcome was;
    do {
        char folder[4096];
        snprintf(folder, sizeof folder, "%s/%" PRIu64, argv[1], ++call);
        HOLDS(mkdir(folder, 0777) == 0);
        was = trial(folder, call);
        reopened(folder, was);
    } while (was.refused);
    /* Each group makes seven calls, its extents among them, the archive and the reclaim six, the floor four, and the
       growth nineteen. */
    printf("refused %" PRIu64 " calls\n", call - 1);
    HOLDS(call - 1 >= 56);
    /* The files as they are found are synced, and then the zeros of the heap and the header written and synced. */
    HOLDS(refused_formats(argv[1]) == 7);
    return 0;
}
