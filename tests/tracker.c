/* The tracker through include/pikowhanu.h: every call, every refusal that a C program can provoke, random bytes in every record, nothing written by a refusal, the places
 * behind the counts, and the stack that the calls take. Valid as C11, C17 and C++17. Prints what it did; exits 1 where something is wrong. */
#ifndef _GNU_SOURCE
#define _GNU_SOURCE /* pthread_attr_setstack, MAP_ANONYMOUS */
#endif
#include <float.h>
#include <math.h>
#include <pthread.h>
#include <stdio.h>
#include <stdlib.h>
#include <string.h>
#include <sys/mman.h>

#include "pikowhanu.h"

static long checks, failures;

#define CHECK(x) check((x) != 0, #x, __LINE__)

static void check(int holds, const char *what, int line)
{
    checks++;
    if (!holds) {
        failures++;
        fprintf(stderr, "tests/tracker.c:%d: %s\n", line, what);
    }
}

/* ---- bytes */

static uint64_t seed = 88172645463325252u;

static uint64_t random64(void)
{
    seed ^= seed << 13;
    seed ^= seed >> 7;
    seed ^= seed << 17;
    return seed;
}

static void random_bytes(void *p, size_t n)
{
    unsigned char *b = (unsigned char *)p;
    for (size_t i = 0; i < n; i++)
        b[i] = (unsigned char)(random64() >> 32);
}

/* padding is no part of a record */
static void clear_padding(struct pk_tracker *t)
{
    memset((char *)&t->settings.lifecycle + 4, 0, 4);
    for (int i = 0; i < PK_MAX_SEQUENCES; i++)
        memset((char *)&t->sequences[i] + 4, 0, 4);
    for (int i = 0; i < PK_MAX_CANDIDATES; i++)
        memset((char *)&t->candidates[i] + 36, 0, 4);
}

static struct pk_tracker left, right;

/* the fields of two trackers, bit for bit */
static int same(const struct pk_tracker *a, const struct pk_tracker *b)
{
    left = *a;
    right = *b;
    clear_padding(&left);
    clear_padding(&right);
    return memcmp(&left, &right, sizeof left) == 0;
}

/* the settings, and the places behind the counts of b, which came from a by an accepted call */
static int same_behind(const struct pk_tracker *a, const struct pk_tracker *b)
{
    left = *a;
    right = *b;
    clear_padding(&left);
    clear_padding(&right);
    size_t n = right.track_count, m = right.sequence_count, k = right.candidate_count;
    return n <= PK_MAX_TRACKS && m <= PK_MAX_SEQUENCES && k <= PK_MAX_CANDIDATES
        && memcmp(&left.tracks[n], &right.tracks[n], (PK_MAX_TRACKS - n) * sizeof left.tracks[0]) == 0
        && memcmp(&left.sequences[m], &right.sequences[m], (PK_MAX_SEQUENCES - m) * sizeof left.sequences[0]) == 0
        && memcmp(&left.candidates[k], &right.candidates[k], (PK_MAX_CANDIDATES - k) * sizeof left.candidates[0]) == 0
        && memcmp(&left.settings, &right.settings, sizeof left.settings) == 0 && left.reserved == right.reserved;
}

/* ---- records */

static struct pk_tracker tracker, before;
static struct pk_batch batch;

static struct pk_detection seen_at(double x, double y, double z)
{
    struct pk_detection d;
    memset(&d, 0, sizeof d);
    d.position[0] = x;
    d.position[1] = y;
    d.position[2] = z;
    for (int i = 0; i < 3; i++)
        d.covariance[4 * i] = 0.01;
    return d;
}

static void start(struct pk_settings s)
{
    CHECK(pk_settings_check(s) == 0);
    CHECK(pk_tracker_new(&tracker, s) == PK_DONE);
}

/* an empty batch of sensor 1 in the settings' frame, after all others */
static void next_batch(int64_t timestamp)
{
    static uint64_t sequence;
    memset(&batch, 0, sizeof batch);
    batch.sequence = ++sequence;
    batch.timestamp = timestamp;
    batch.frame = tracker.settings.frame;
    batch.sensor_id = 1;
}

static void add(struct pk_detection d)
{
    batch.detections[batch.count++] = d;
}

/* a call that is refused with this number and writes nothing */
static void refused_batch(uint32_t number, int line)
{
    before = tracker;
    struct pk_report r = pk_process_batch(&tracker, &batch);
    if (r.code != number)
        fprintf(stderr, "tests/tracker.c:%d: refusal %u, not %u\n", line, r.code, number);
    CHECK(r.code == number);
    CHECK(same(&before, &tracker));
    struct pk_report blank;
    memset(&blank, 0, sizeof blank);
    blank.code = number;
    CHECK(memcmp(&blank, &r, sizeof r) == 0);
}

static void refused_predict(uint32_t number, int64_t at)
{
    before = tracker;
    CHECK(pk_predict_to(&tracker, at) == number);
    CHECK(same(&before, &tracker));
}

#define REFUSED(number) refused_batch(number, __LINE__)

static void accepted_batch(int line)
{
    before = tracker;
    struct pk_report r = pk_process_batch(&tracker, &batch);
    if (r.code != 0)
        fprintf(stderr, "tests/tracker.c:%d: refused with %u\n", line, r.code);
    CHECK(r.code == PK_DONE);
    CHECK(same_behind(&before, &tracker));
    CHECK(r.sensor_id == batch.sensor_id && r.timestamp == batch.timestamp && r.association_count == batch.count);
}

#define ACCEPTED() accepted_batch(__LINE__)

/* ---- settings */

static void bad_field(uint32_t field, struct pk_settings s)
{
    CHECK(pk_settings_check(s) == field);
    random_bytes(&tracker, sizeof tracker);
    before = tracker;
    CHECK(pk_tracker_new(&tracker, s) == PK_INVALID_CONFIG);
    CHECK(same(&before, &tracker));
}

static void settings(void)
{
    const struct pk_settings good = pk_settings_default();
    CHECK(pk_settings_check(good) == 0);
    CHECK(good.gate_squared_mahalanobis == 16.266 && good.frame.length == 5 && memcmp(good.frame.bytes, "world", 5) == 0);
    struct pk_settings s;
#define BAD(field, change) do { s = good; change; bad_field(field, s); } while (0)
    BAD(1, s.lifecycle.tentative_timeout_ns = 0);
    BAD(2, s.lifecycle.confirmed_to_lost_ns = -1);
    BAD(3, s.lifecycle.lost_to_delete_ns = s.lifecycle.confirmed_to_lost_ns - 1);
    BAD(4, s.max_contributing_sensors = 0);
    BAD(5, (s.has_new_track_score_threshold = 7, s.new_track_score_threshold = 1.5));
    BAD(6, s.accel_spectral_density = -1);
    BAD(7, s.initial_velocity_variance = 0);
    BAD(8, s.gate_squared_mahalanobis = INFINITY);
    BAD(9, s.class_prior_penalty = NAN);
    BAD(10, (s.has_min_birth_distance = 1, s.min_birth_distance_m = 0));
    BAD(11, (s.has_birth_persistence = 1, s.birth_persistence = 1));
    BAD(12, s.birth_candidate_radius_m = -1);
    BAD(13, s.birth_candidate_timeout_ns = 0);
    BAD(14, (s.has_velocity_measurement_std = 1, s.velocity_measurement_std = 0));
    BAD(15, (s.has_recent_track_window = 1, s.recent_track_window_ns = 0));
    BAD(16, s.frame.length = 33);
    BAD(17, s.max_contributing_sensors = 17);
#undef BAD
    /* a value whose flag is 0 is not there, whatever it is */
    s = good;
    s.has_new_track_score_threshold = 0;
    s.new_track_score_threshold = NAN;
    s.has_birth_persistence = 0;
    s.birth_persistence = 0;
    CHECK(pk_settings_check(s) == 0);
    /* a fresh tracker is settled as a whole, whatever stood there */
    random_bytes(&tracker, sizeof tracker);
    start(s);
    before = tracker;
    memset(&tracker, 0, sizeof tracker);
    start(s);
    CHECK(same(&before, &tracker));
    CHECK(tracker.track_count == 0 && tracker.next_track_id == 1 && tracker.has_last_time == 0);
    CHECK(memcmp(&tracker.settings.frame, &s.frame, sizeof s.frame) == 0);
}

/* ---- a run: two people, one of a known class, one that leaves */

static void run(void)
{
    start(pk_settings_default());
    for (int i = 0; i < 20; i++) {
        next_batch(100000000 * (int64_t)i);
        struct pk_detection d = seen_at(0.1 * i, 1, 0.9);
        d.has_class = 3;
        d.class_label = 42;
        d.has_score = 1;
        d.score = 0.5;
        add(d);
        if (i < 10)
            add(seen_at(5, 5 - 0.1 * i, 0.9));
        ACCEPTED();
    }
    CHECK(tracker.track_count == 2 && tracker.next_track_id == 3 && tracker.has_last_time == 1 && tracker.last_time == 1900000000);
    const struct pk_track *a = &tracker.tracks[0], *b = &tracker.tracks[1];
    CHECK(a->id == 1 && a->lifecycle == PK_CONFIRMED && a->updated == 1 && a->observation_times == 20 && a->has_class == 1 && a->class_label == 42);
    CHECK(fabs(a->filter.state[0] - 1.9) < 0.05 && fabs(a->filter.state[3] - 1) < 0.1);
    CHECK(a->sensors.count == 1 && a->sensors.ids[0] == 1 && a->has_last_sensor == 1 && a->last_sensor == 1 && a->reserved == 0);
    CHECK(b->id == 2 && b->lifecycle == PK_LOST && b->updated == 0 && b->last_observation == 900000000 && b->has_class == 0);
    CHECK(pk_set_class_prior(&tracker, 2, 9, 1.5) == PK_DONE);
    CHECK(b->has_prior == 1 && b->prior_label == 9 && b->prior_confidence == 1.0);
    CHECK(pk_predict_to(&tracker, 2000000000) == PK_DONE);
    CHECK(tracker.last_time == 2000000000 && a->updated == 1 && fabs(a->filter.state[0] - 2) < 0.05);
    CHECK(pk_predict_to(&tracker, 2900000001) == PK_DONE);
    CHECK(tracker.track_count == 1 && a->lifecycle == PK_LOST);
    next_batch(2900000001);
    struct pk_detection d = seen_at(2.9, 1, 0.9);
    d.has_velocity = 1;
    add(d);
    add(seen_at(9, 9, 0.9));
    before = tracker;
    struct pk_report r = pk_process_batch(&tracker, &batch);
    CHECK(r.code == PK_DONE && r.association_count == 2 && r.unmatched_track_count == 0);
    CHECK(r.associations[0].outcome == PK_UPDATED && r.associations[0].has_track == 1 && r.associations[0].track_id == 1 && r.associations[0].has_cost == 1);
    CHECK(r.associations[1].outcome == PK_SPAWNED && r.associations[1].track_id == 3 && r.associations[1].has_cost == 0 && r.associations[1].observation_index == 1);
    CHECK(tracker.track_count == 2 && tracker.tracks[1].id == 3 && same_behind(&before, &tracker));
}

/* ---- refusals */

static void batch_refusals(void)
{
    start(pk_settings_default());
    next_batch(1000);
    add(seen_at(0, 0, 0));
    ACCEPTED();
    next_batch(2000);
    batch.count = 65;
    REFUSED(PK_TOO_MANY);
    batch.count = SIZE_MAX;
    REFUSED(PK_TOO_MANY);
    batch.count = 0;
    batch.frame.bytes[0] = 'W';
    REFUSED(PK_FRAME_MISMATCH);
    batch.frame = tracker.settings.frame;
    batch.frame.length = 33;
    REFUSED(PK_FRAME_MISMATCH);
    next_batch(999);
    REFUSED(PK_TIME_WENT_BACK);
    next_batch(2000);
    batch.sequence = tracker.sequences[0].sequence;
    REFUSED(PK_DUPLICATE_BATCH);
    next_batch(2000);
    add(seen_at(0, NAN, 0));
    REFUSED(PK_NOT_FINITE);
    next_batch(2000);
    add(seen_at(0, 0, 0));
    batch.detections[0].has_velocity = 5;
    batch.detections[0].velocity[1] = INFINITY;
    REFUSED(PK_NOT_FINITE);
    batch.detections[0].has_velocity = 0;
    batch.detections[0].covariance[1] = 0.001;
    REFUSED(PK_NOT_SYMMETRIC);
    batch.detections[0].covariance[1] = 0;
    batch.detections[0].covariance[8] = 0;
    REFUSED(PK_NOT_POSITIVE_DEFINITE);
    /* behind the count nothing is looked at */
    next_batch(2000);
    random_bytes(batch.detections, sizeof batch.detections);
    batch.detections[0] = seen_at(0, 0, 0);
    batch.count = 1;
    ACCEPTED();
}

static void limits(void)
{
    /* a 65th track */
    start(pk_settings_default());
    next_batch(0);
    for (int i = 0; i < 64; i++)
        add(seen_at(100.0 * i, 0, 0));
    ACCEPTED();
    CHECK(tracker.track_count == 64 && tracker.next_track_id == 65);
    next_batch(1);
    add(seen_at(0, 1000, 0));
    REFUSED(PK_TOO_MANY);
    /* a 33rd sensor */
    start(pk_settings_default());
    for (uint32_t i = 0; i < 32; i++) {
        next_batch(0);
        batch.sensor_id = 1000 - i;
        ACCEPTED();
    }
    CHECK(tracker.sequence_count == 32 && tracker.sequences[0].sensor == 969);
    next_batch(0);
    batch.sensor_id = 5;
    REFUSED(PK_TOO_MANY);
    /* a 65th candidate: all too near a confirmed track */
    struct pk_settings s = pk_settings_default();
    s.has_min_birth_distance = 1;
    s.min_birth_distance_m = 1e9;
    s.has_birth_persistence = 1;
    s.birth_persistence = 3;
    s.lifecycle.confirm_min_observation_times = 0;
    s.birth_candidate_timeout_ns = INT64_MAX;
    start(s);
    next_batch(0);
    add(seen_at(0, 0, 0));
    ACCEPTED();
    for (int i = 0; i < 64; i++) {
        next_batch(1 + i);
        add(seen_at(100.0 * (i + 1), 0, 0));
        ACCEPTED();
    }
    CHECK(tracker.candidate_count == 64 && tracker.candidates[0].sightings == 1);
    next_batch(100);
    add(seen_at(0, 5000, 0));
    REFUSED(PK_TOO_MANY);
    /* the numbers used up */
    start(pk_settings_default());
    tracker.next_track_id = UINT64_MAX;
    next_batch(0);
    add(seen_at(0, 0, 0));
    REFUSED(PK_TOO_MANY);
}

/* so narrow that squared distances come near the largest double */
static struct pk_detection narrow_at(double x)
{
    struct pk_detection d = seen_at(x, 0, 0);
    d.covariance[0] = 1e-300;
    return d;
}

static void later_refusals(void)
{
    struct pk_settings s = pk_settings_default();
    /* times that lie too far apart */
    s.lifecycle.tentative_timeout_ns = INT64_MAX;
    start(s);
    next_batch(INT64_MIN);
    add(seen_at(0, 0, 0));
    ACCEPTED();
    refused_predict(PK_TIME_OVERFLOW, INT64_MAX);
    next_batch(INT64_MAX);
    REFUSED(PK_TIME_OVERFLOW);
    CHECK(pk_predict_to(&tracker, -1) == PK_DONE);
    refused_predict(PK_TIME_WENT_BACK, -2);
    /* the noise, then the result */
    s.accel_spectral_density = 1e308;
    start(s);
    next_batch(0);
    add(seen_at(0, 0, 0));
    ACCEPTED();
    refused_predict(PK_NOT_FINITE, 10000000000);
    next_batch(10000000000);
    REFUSED(PK_NOT_FINITE);
    s.accel_spectral_density = 0;
    s.initial_velocity_variance = 1e308;
    start(s);
    next_batch(0);
    add(seen_at(0, 0, 0));
    ACCEPTED();
    refused_predict(PK_RESULT_NOT_FINITE, 10000000000);
    next_batch(10000000000);
    REFUSED(PK_RESULT_NOT_FINITE);
    /* a distance that is not finite */
    s = pk_settings_default();
    start(s);
    next_batch(0);
    add(seen_at(0, 0, 0));
    ACCEPTED();
    next_batch(0);
    add(seen_at(1e200, 0, 0));
    REFUSED(PK_RESULT_NOT_FINITE);
    /* an assignment that overflows */
    s.gate_squared_mahalanobis = DBL_MAX;
    start(s);
    next_batch(0);
    add(narrow_at(0));
    add(narrow_at(0x1.91cdf8212beb8p+13));
    add(narrow_at(0x1.082d8427e4dc4p+0));
    ACCEPTED();
    next_batch(0);
    add(narrow_at(0x1.e8e9a40219ecfp+10));
    add(narrow_at(0x1.91cdf8212beb8p+13));
    REFUSED(PK_ASSIGNMENT_FAILED);
    /* priors */
    start(pk_settings_default());
    next_batch(0);
    add(seen_at(0, 0, 0));
    ACCEPTED();
    before = tracker;
    CHECK(pk_set_class_prior(&tracker, 2, 1, 0.5) == PK_INVALID_PRIOR);
    CHECK(pk_set_class_prior(&tracker, 1, 1, NAN) == PK_INVALID_PRIOR);
    CHECK(pk_set_class_prior(&tracker, 1, 1, -INFINITY) == PK_INVALID_PRIOR);
    CHECK(same(&before, &tracker));
    CHECK(pk_set_class_prior(&tracker, 1, 1, -0.5) == PK_DONE);
    CHECK(tracker.tracks[0].prior_confidence == 0 && tracker.tracks[0].has_prior == 1);
}

static void others(void)
{
    double root = 7;
    CHECK(pk_root(2, &root) == 0 && root == 1.4142135623730951);
    CHECK(pk_root(NAN, &root) == PK_RESULT_NOT_FINITE && pk_root(-1, &root) == PK_RESULT_NOT_FINITE && root == 1.4142135623730951);
    const double costs[4] = {1, 2, INFINITY, 4};
    uint64_t mates[3] = {7, 7, 7};
    CHECK(pk_linear_assignment(costs, 4, 2, 2, 10, 0, mates, 1) == PK_TOO_MANY && mates[0] == 7);
    CHECK(pk_linear_assignment(costs, 4, 65, 2, 10, 0, mates, 3) == PK_TOO_MANY && mates[0] == 7);
    CHECK(pk_linear_assignment(costs, 4, 2, 2, NAN, 0, mates, 3) == PK_RESULT_NOT_FINITE && mates[0] == 7);
    CHECK(pk_linear_assignment(costs, 3, 2, 2, 10, 0, mates, 3) == PK_ASSIGNMENT_FAILED && mates[0] == 7);
    CHECK(pk_linear_assignment(costs, 4, 2, 2, 10, 0, mates, 3) == PK_DONE && mates[0] == 0 && mates[1] == 1 && mates[2] == 7);
    CHECK(pk_linear_assignment(costs, 4, 2, 2, 0, 0, mates, 3) == PK_DONE && mates[0] == PK_ALONE && mates[1] == PK_ALONE && mates[2] == 7);
}

/* ---- random bytes: each call ends, a refusal writes nothing, and what stands behind the counts stays */

static void noise(int rounds)
{
    long done = 0;
    for (int i = 0; i < rounds; i++) {
        random_bytes(&tracker, sizeof tracker);
        random_bytes(&batch, sizeof batch);
        struct pk_settings s;
        random_bytes(&s, sizeof s);
        if (i % 4 != 0) {
            /* near enough to good ones that some calls are carried out */
            tracker.settings = pk_settings_default();
            tracker.settings.has_recent_track_window = 0;
            tracker.track_count = random64() % 70;
            tracker.sequence_count = random64() % 36;
            tracker.candidate_count = random64() % 70;
            for (int j = 0; j < PK_MAX_TRACKS; j++)
                tracker.tracks[j].lifecycle = (uint32_t)(random64() % 5);
            batch.frame = tracker.settings.frame;
            batch.count = random64() % 66;
            for (size_t j = 0; j < PK_MAX_DETECTIONS; j++)
                batch.detections[j] = seen_at((double)(random64() % 1000), (double)(random64() % 1000), 0);
            if (i % 4 == 3)
                tracker.track_count = 0;
            if (i % 8 == 3)
                tracker.sequence_count = 0;
        }
        before = tracker;
        struct pk_report r = pk_process_batch(&tracker, &batch);
        CHECK(r.code <= 11 && (r.code == 0 ? same_behind(&before, &tracker) : same(&before, &tracker)));
        done += r.code == 0;
        before = tracker;
        uint32_t code = pk_predict_to(&tracker, (int64_t)random64());
        CHECK(code <= 9 && (code == 0 ? same_behind(&before, &tracker) : same(&before, &tracker)));
        done += code == 0;
        before = tracker;
        code = pk_set_class_prior(&tracker, tracker.tracks[random64() % PK_MAX_TRACKS].id, 3, 0.5);
        CHECK((code == 0 || code == 12) && (code == 0 ? same_behind(&before, &tracker) : same(&before, &tracker)));
        done += code == 0;
        before = tracker;
        code = pk_tracker_new(&tracker, s);
        CHECK(pk_settings_check(s) <= 17 && code == (pk_settings_check(s) != 0) && (code == 0 || same(&before, &tracker)));
    }
    printf("random bytes: %d rounds, %ld calls carried out\n", rounds, done);
    CHECK(done > rounds / 4);
}

/* ---- stack: each call runs on a painted stack of PK_STACK_BYTES, and what is left unpainted is counted */

static void call_new(void) { pk_tracker_new(&tracker, pk_settings_default()); }
static void call_predict(void) { pk_predict_to(&tracker, 5); }
static void call_prior(void) { pk_set_class_prior(&tracker, 1, 1, 0.5); }
static struct pk_report reported;
static void call_batch(void) { reported = pk_process_batch(&tracker, &batch); }
static void call_root(void) { double r = 0; pk_root(2, &r); }
static double table[64 * 64];
static uint64_t table_mates[64];
static void call_assignment(void) { pk_linear_assignment(table, 4096, 64, 64, 10, 0, table_mates, 64); }
static void call_nothing(void) {}

static void *on_thread(void *call)
{
    (*(void (**)(void))call)();
    return NULL;
}

static size_t deepest(void (*call)(void))
{
    unsigned char *low = (unsigned char *)mmap(NULL, PK_STACK_BYTES, PROT_READ | PROT_WRITE, MAP_PRIVATE | MAP_ANONYMOUS, -1, 0);
    memset(low, 0xa5, PK_STACK_BYTES);
    pthread_attr_t attr;
    pthread_t thread;
    pthread_attr_init(&attr);
    int made = pthread_attr_setstack(&attr, low, PK_STACK_BYTES) == 0 && pthread_create(&thread, &attr, on_thread, &call) == 0;
    CHECK(made);
    if (made)
        pthread_join(thread, NULL);
    size_t clean = 0;
    while (clean < PK_STACK_BYTES && low[clean] == 0xa5)
        clean++;
    munmap(low, PK_STACK_BYTES);
    return PK_STACK_BYTES - clean;
}

static void stacks(void)
{
    const struct { const char *name; void (*call)(void); } calls[] = {
        {"pk_root", call_root}, {"pk_linear_assignment", call_assignment}, {"pk_tracker_new", call_new},
        {"pk_predict_to", call_predict}, {"pk_set_class_prior", call_prior}, {"pk_process_batch", call_batch},
    };
    for (int i = 0; i < 64 * 64; i++)
        table[i] = (double)(random64() % 1000);
    size_t thread = deepest(call_nothing);
    for (size_t i = 0; i < sizeof calls / sizeof calls[0]; i++) {
        struct pk_settings s = pk_settings_default();
        s.has_recent_track_window = 1;
        s.recent_track_window_ns = 100;
        s.has_min_birth_distance = 1;
        s.min_birth_distance_m = 1;
        s.has_birth_persistence = 1;
        s.birth_persistence = 2;
        s.has_velocity_measurement_std = 1;
        s.velocity_measurement_std = 1;
        start(s);
        for (int k = 0; k < 3; k++) {
            next_batch(k);
            for (int j = 0; j < 60; j++) {
                add(seen_at(10.0 * j, 0, 0));
                batch.detections[j].has_velocity = 1;
            }
            if (k == 2)
                for (int j = 0; j < 4; j++)
                    add(seen_at(10.0 * j, 0.9, 0));
            if (k < 2)
                ACCEPTED();
        }
        size_t deep = deepest(calls[i].call);
        printf("stack of %s: %zu bytes\n", calls[i].name, deep - thread);
        CHECK(deep < PK_STACK_BYTES - PK_STACK_BYTES / 32);
    }
    CHECK(reported.code == PK_DONE && reported.associations[0].outcome == PK_UPDATED);
}

int main(int argc, char **argv)
{
    settings();
    run();
    batch_refusals();
    limits();
    later_refusals();
    others();
    noise(argc > 1 ? atoi(argv[1]) : 4000);
    if (argc <= 2)
        stacks();
    printf("%ld checks, %ld failures\n", checks, failures);
    return failures != 0;
}
