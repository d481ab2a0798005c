/* Pikowhanu for C programs: a square root, the pairing of least total, and the Cartesian 3D tracker. x86-64 Linux.
 *
 * Link target/staticlib/libpikowhanu.a, which `tools/built archive pikowhanu` makes. It asks for memcpy, memmove and memset and for nothing else:
 * no heap, no globals, no locks, no I/O, no maths library.
 *
 * What holds for every call:
 * - It answers 0 (PK_DONE), or the number of its refusal, in the order of the tables below. Refused, it leaves all that it was lent as it was,
 *   bit for bit (padding between fields is no part of a record).
 * - It ends, and reads and writes nothing but what it was lent and its own stack. It keeps nothing after it returns. Any thread
 *   may call it; one tracker may be used by one thread at a time.
 * - Pointers lead to memory of the caller's, aligned for their type (8 bytes), and are not null; no two of one call may overlap.
 * - What is lent or passed must be initialised as a whole (static storage, = {0} or memset), also what stands behind its counts and what a
 *   call will write. Beyond that no bytes are asked for: every value that a field can take means something, and none breaks a call.
 * - Numbers are binary64, in round-to-nearest with subnormals on: what a process has at its start. Do not link start-up code that changes it
 *   (gcc's -ffast-math and -Ofast do when they link). A NaN may come back as another NaN.
 * - Stack: PK_STACK_BYTES are enough for any call.
 *
 * Every sentence about answers in this file is proved of the library's code; the stack is measured, and tested by tests/tracker.c. */
#ifndef PIKOWHANU_H
#define PIKOWHANU_H

#include <stddef.h>
#include <stdint.h>

#ifdef __cplusplus
extern "C" {
#endif

/* Stack that is enough for any call, with margin. Measured, in KB: pk_root 1, pk_linear_assignment 54, pk_tracker_new 70, pk_set_class_prior 314, pk_predict_to 108,
 * pk_process_batch 484. (musl gives a thread 128 KB unless told otherwise.) */
#define PK_STACK_BYTES ((size_t)1 << 19)

/* ---- answers */

enum {
    PK_DONE = 0,
    PK_INVALID_CONFIG = 1,        /* settings: pk_settings_check names the field */
    PK_FRAME_MISMATCH = 2,        /* a batch of another frame than the settings' */
    PK_TIME_WENT_BACK = 3,        /* a time before the tracker's last one */
    PK_DUPLICATE_BATCH = 4,       /* a sequence number not above the sensor's last one */
    PK_NOT_FINITE = 5,            /* a position, velocity, covariance or process noise */
    PK_NOT_SYMMETRIC = 6,         /* a covariance */
    PK_NOT_POSITIVE_DEFINITE = 7, /* a covariance, or that of an innovation */
    PK_TIME_OVERFLOW = 8,         /* a difference of times that leaves int64_t */
    PK_RESULT_NOT_FINITE = 9,     /* a state, covariance or distance; a root of a NaN or below zero; an unmatched cost */
    PK_ASSIGNMENT_FAILED = 10,    /* a step of the pairing is not finite; a table's length is not rows * columns */
    PK_TOO_MANY = 11,             /* more of something than there are places for */
    PK_INVALID_PRIOR = 12         /* no track of that number, or a confidence that is not finite */
};

/* ---- root */

/* The double nearest the square root of x, into *out. The root of +0 and of -0 is itself, that of +infinity is +infinity.
 * Refused with 9, and *out left as it was, for a NaN and for numbers below zero. */
uint32_t pk_root(double x, double *out);

/* ---- pairing */

/* What stands for the column of a row that stays alone. */
#define PK_ALONE UINT64_MAX

/* The pairing of rows with columns for a table of costs, row after row: `length` doubles, rows * columns of them. A cost that is not
 * finite forbids its pair; row_cost and column_cost are the costs of a row and of a column that stay alone. mates[i] becomes the column
 * of row i, or PK_ALONE where row i stays alone, for each of the rows; the places behind them stay as they were. The columns that
 * stay alone are those that are no row's. `mates_length` is the number of places of `mates`, at least `rows`.
 *
 * Least: the total is that of the pairs' costs and of row_cost for each row that stays alone. Where all costs that are finite and row_cost are
 * whole numbers from -1,000,000 to 1,000,000 and column_cost is 0, no pairing of allowed pairs has a smaller total, and no forbidden pair
 * is given. Outside that range the steps of the Hungarian method decide; there a forbidden pair can be given (costs -1e26, forbidden; -2e26, -1
 * at row cost 0: row 0 gets column 1).
 *
 * Refused, with `mates` left as it was: 11 for more than 64 rows or columns or for fewer places than rows, then 9 for a row_cost or
 * column_cost that is not finite, then 10 for a length that is not rows * columns, or costs so large that a step is not finite.
 * A pointer whose length is 0 may lead nowhere, but must not be null. */
uint32_t pk_linear_assignment(const double *costs, size_t length, size_t rows, size_t columns, double row_cost, double column_cost,
                              uint64_t *mates, size_t mates_length);

/* ---- the tracker's records
 *
 * Numbers alone. A value that may be missing has a flag has_...: 0 says that it is missing, anything else that it is there; the library
 * writes 0 and 1. Times are nanoseconds, lengths metres. Fields named `reserved` mean nothing; in records that the library writes they are 0. */

enum {
    PK_MAX_TRACKS = 64,
    PK_MAX_DETECTIONS = 64,
    PK_MAX_CANDIDATES = 64,
    PK_MAX_SEQUENCES = 32, /* sensors with a sequence number */
    PK_MAX_SENSORS = 16,   /* that a track remembers */
    PK_FRAME_BYTES = 32
};

/* pk_track.lifecycle; any other number is read as PK_DELETED, which no track in a table is left in */
enum { PK_TENTATIVE = 0, PK_CONFIRMED = 1, PK_LOST = 2, PK_DELETED = 3 };

/* pk_association.outcome */
enum { PK_UNMATCHED = 0, PK_UPDATED = 1, PK_SPAWNED = 2 };

/* The name of a coordinate frame: its first `length` bytes. */
struct pk_frame {
    uint8_t bytes[PK_FRAME_BYTES];
    size_t length;
};

struct pk_lifecycle {
    uint32_t confirm_min_observation_times; /* a track is confirmed after so many */
    int64_t tentative_timeout_ns;           /* a tentative track unseen for longer is dropped */
    int64_t confirmed_to_lost_ns;           /* a confirmed one unseen for longer is lost */
    int64_t lost_to_delete_ns;              /* a lost one unseen for longer is dropped */
};

struct pk_settings {
    struct pk_lifecycle lifecycle;
    size_t max_contributing_sensors;
    struct pk_frame frame;             /* the one frame whose batches are taken */
    double accel_spectral_density;     /* of a white acceleration, m^2/s^3 */
    double initial_velocity_variance;  /* of a new track, m^2/s^2 */
    double gate_squared_mahalanobis;   /* the largest squared distance of a pair, itself included */
    double class_prior_penalty;        /* added to a pair's cost by a class against the prior, at confidence 1 */
    double birth_candidate_radius_m;   /* a sighting nearer than this continues a candidate */
    int64_t birth_candidate_timeout_ns;
    double new_track_score_threshold;  /* has_..: detections of a lower score begin no track */
    int64_t recent_track_window_ns;    /* has_..: tracks seen within it are paired first */
    double min_birth_distance_m;       /* has_..: nearer than this to a confirmed track none begins at once */
    double velocity_measurement_std;   /* has_..: of a measured velocity, m/s; without it velocities are passed over */
    uint32_t birth_persistence;        /* has_..: sightings after which such a detection begins one all the same */
    uint32_t has_new_track_score_threshold;
    uint32_t has_recent_track_window;
    uint32_t has_min_birth_distance;
    uint32_t has_velocity_measurement_std;
    uint32_t has_birth_persistence;
};

struct pk_sensors {
    uint32_t ids[PK_MAX_SENSORS]; /* the first `count`, the oldest first */
    size_t count;
};

struct pk_filter {
    double state[6];       /* position, velocity */
    double covariance[36]; /* row after row */
};

struct pk_track {
    uint64_t id;
    struct pk_filter filter;
    int64_t created_at;
    int64_t last_observation; /* has_last_observation */
    int64_t last_counted;     /* has_last_counted: the last time that observation_times counts */
    int64_t state_timestamp;  /* the time that the filter's state refers to */
    double prior_confidence;  /* has_prior */
    struct pk_sensors sensors;
    uint32_t lifecycle;
    uint32_t has_last_observation;
    uint32_t has_last_counted;
    uint32_t observation_times;
    uint32_t has_class;
    uint32_t class_label; /* has_class */
    uint32_t has_prior;
    uint32_t prior_label; /* has_prior */
    uint32_t has_last_sensor;
    uint32_t last_sensor; /* has_last_sensor: of the latest update */
    uint32_t updated;     /* by the last batch */
    uint32_t reserved;
};

struct pk_sequence {
    uint32_t sensor;
    uint64_t sequence;
};

/* A detection too near a confirmed track, which may turn out to be a neighbour. */
struct pk_candidate {
    double position[3];
    int64_t last_seen;
    uint32_t sightings;
};

/* The tracker: the caller's to hold (35,560 bytes), to copy and to compare, and to read whenever no call runs on it. tracks[0 .. track_count) are
 * the tracks, their numbers ascending. Write to it by the calls alone, or what the tracker guarantees of its tracks is lost (its calls stay
 * safe all the same). A count above its table's size is read as that size. */
struct pk_tracker {
    struct pk_track tracks[PK_MAX_TRACKS];
    size_t track_count;
    uint64_t next_track_id;
    int64_t last_time; /* has_last_time: of the last call that moved time */
    struct pk_sequence sequences[PK_MAX_SEQUENCES];
    size_t sequence_count;
    struct pk_candidate candidates[PK_MAX_CANDIDATES];
    size_t candidate_count;
    struct pk_settings settings;
    uint32_t has_last_time;
    uint32_t reserved;
};

struct pk_detection {
    double position[3];
    double covariance[9]; /* row after row */
    double velocity[2];   /* has_velocity */
    double score;         /* has_score */
    uint32_t has_velocity;
    uint32_t has_score;
    uint32_t has_class;
    uint32_t class_label; /* has_class */
};

/* What a sensor saw at one time: detections[0 .. count). A count above 64 is refused with 11. */
struct pk_batch {
    uint64_t sequence; /* above that of the sensor's batch before */
    int64_t timestamp;
    struct pk_frame frame;
    uint32_t sensor_id;
    uint32_t reserved;
    size_t count;
    struct pk_detection detections[PK_MAX_DETECTIONS];
};

struct pk_association {
    size_t observation_index;
    uint64_t track_id; /* has_track: the track that it updated or began */
    double cost;       /* has_cost: of the pair, with the prior's penalty */
    uint32_t outcome;
    uint32_t has_track;
    uint32_t has_cost;
    uint32_t reserved;
};

/* What became of a batch. `code` is the answer; beside a refusal all else is 0. Otherwise associations[0 .. association_count) tell of each detection, in
 * the batch's order, and unmatched_track_ids[0 .. unmatched_track_count) are the tracks that none was paired with, in the table's; zeros stand behind. */
struct pk_report {
    uint32_t code;
    uint32_t sensor_id;
    int64_t timestamp;
    size_t association_count;
    size_t unmatched_track_count;
    struct pk_association associations[PK_MAX_DETECTIONS];
    uint64_t unmatched_track_ids[PK_MAX_TRACKS];
};

/* ---- the tracker's calls */

/* The settings that hold where nothing is set: frame "world", gate 16.266, confirmed after 2 observations, 1 s, 0.5 s and 2 s of the lifecycle. */
struct pk_settings pk_settings_default(void);

/* 0, or the number of the first bad field, in this order:
 *  1 tentative_timeout_ns not above 0             10 min_birth_distance_m, set: not finite or not above 0
 *  2 confirmed_to_lost_ns not above 0             11 birth_persistence, set: below 2
 *  3 lost_to_delete_ns below confirmed_to_lost_ns 12 birth_candidate_radius_m not finite or not above 0
 *  4 max_contributing_sensors is 0                13 birth_candidate_timeout_ns not above 0
 *  5 new_track_score_threshold, set: not in 0..1  14 velocity_measurement_std, set: not finite or not above 0
 *  6 accel_spectral_density not finite or below 0 15 recent_track_window_ns, set: not above 0
 *  7 initial_velocity_variance not finite or      16 frame.length above 32
 *    not above 0                                  17 max_contributing_sensors above 16
 *  8 gate_squared_mahalanobis, as 7
 *  9 class_prior_penalty, as 6 */
uint32_t pk_settings_check(struct pk_settings settings);

/* A tracker that has seen nothing, over whatever stood in *t: every field of it is written, `settings` as given. Refused with 1, and *t left as
 * it was, where pk_settings_check names a field. */
uint32_t pk_tracker_new(struct pk_tracker *t, struct pk_settings settings);

/* Time moves on to `at` without a batch: tracks age, are lost or dropped, and are predicted to it; marks of the last batch and candidates stay.
 * Refused: 3; then for each track that is kept, in the table's order, 8, 5, 9. */
uint32_t pk_predict_to(struct pk_tracker *t, int64_t at);

/* The class that a track is thought to have, and how surely; the confidence is brought into 0..1. Refused with 12. */
uint32_t pk_set_class_prior(struct pk_tracker *t, uint64_t track_id, uint32_t label, double confidence);

/* A sensor's batch: tracks are moved to its time, paired with its detections and updated by them; other detections begin tracks or candidates.
 * Refused: 11 over 64 detections; 2; 3; 4; then for each detection 5, 6, 7; 11 a 33rd sensor; 8, 5, 9 as pk_predict_to; 7, 9 of distances; 8 an age in the
 * window of recent tracks; 10; updates, the position's 7, 9 and the velocity's 5, 7, 9; 8 a candidate's age; births 11 (a 65th candidate or track, or the
 * numbers used up), 5, 7.
 *
 * No far detection disturbs, in its own batch, a track that stood before: two batches from one state that differ only by detections which may pair with no
 * track leave each such track the same, bit for bit, and the same updates at the same costs. */
struct pk_report pk_process_batch(struct pk_tracker *t, const struct pk_batch *batch);

/* ---- the layout that the library is proved for: the same numbers are theorems in crates/records and crates/batch_records */

#ifdef __cplusplus
#define PK_SAYS(x) static_assert(x, #x)
#else
#define PK_SAYS(x) _Static_assert(x, #x)
#endif
PK_SAYS(sizeof(size_t) == 8 && sizeof(double) == 8);
PK_SAYS(sizeof(struct pk_frame) == 40 && sizeof(struct pk_lifecycle) == 32 && sizeof(struct pk_settings) == 184);
PK_SAYS(sizeof(struct pk_sensors) == 72 && sizeof(struct pk_filter) == 336 && sizeof(struct pk_track) == 504);
PK_SAYS(sizeof(struct pk_sequence) == 16 && sizeof(struct pk_candidate) == 40 && sizeof(struct pk_tracker) == 35560);
PK_SAYS(sizeof(struct pk_detection) == 136 && sizeof(struct pk_batch) == 8776);
PK_SAYS(sizeof(struct pk_association) == 40 && sizeof(struct pk_report) == 3104);
PK_SAYS(offsetof(struct pk_settings, frame) == 40 && offsetof(struct pk_settings, birth_candidate_timeout_ns) == 120);
PK_SAYS(offsetof(struct pk_settings, birth_persistence) == 160 && offsetof(struct pk_settings, has_birth_persistence) == 180);
PK_SAYS(offsetof(struct pk_track, filter) == 8 && offsetof(struct pk_track, created_at) == 344 && offsetof(struct pk_track, sensors) == 384);
PK_SAYS(offsetof(struct pk_track, lifecycle) == 456 && offsetof(struct pk_track, updated) == 496);
PK_SAYS(offsetof(struct pk_tracker, track_count) == 32256 && offsetof(struct pk_tracker, last_time) == 32272);
PK_SAYS(offsetof(struct pk_tracker, sequences) == 32280 && offsetof(struct pk_tracker, candidates) == 32800);
PK_SAYS(offsetof(struct pk_tracker, settings) == 35368 && offsetof(struct pk_tracker, has_last_time) == 35552);
PK_SAYS(offsetof(struct pk_detection, covariance) == 24 && offsetof(struct pk_detection, has_velocity) == 120);
PK_SAYS(offsetof(struct pk_batch, frame) == 16 && offsetof(struct pk_batch, count) == 64 && offsetof(struct pk_batch, detections) == 72);
PK_SAYS(offsetof(struct pk_association, outcome) == 24);
PK_SAYS(offsetof(struct pk_report, associations) == 32 && offsetof(struct pk_report, unmatched_track_ids) == 2592);
#undef PK_SAYS

#ifdef __cplusplus
}
#endif

#endif
