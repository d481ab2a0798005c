/* A minute on a shop floor through the C interface: two heads report people and a cart, one tracker follows them, and a table and a picture say who
 * was where. Beside it a second tracker gets the same batches with the clutter left out, and after each batch the tracks of both are compared, bit
 * for bit. What the heads report is made up in scene.c, and picture.c draws; this file has what a head's firmware would have, and the comparison. */
#include <inttypes.h>
#include <stdio.h>
#include <string.h>

#include "picture.h"

/* Static: initialised as a whole, and the 35 kB of each stay off the stack. */
static struct pk_tracker tracker, without_clutter;
static struct story story;

static struct pk_settings shop_settings(void)
{
    struct pk_settings s = pk_settings_default();
    s.accel_spectral_density = 0.1;             /* people stroll */
    s.gate_squared_mahalanobis = 25;            /* past the default gate lies a detection in a thousand: some in every minute */
    s.lifecycle.lost_to_delete_ns = 4000000000; /* long enough to walk past the shelf unseen */
    s.has_recent_track_window = 1;              /* tracks just seen choose first, those unseen for longer from what is left */
    s.recent_track_window_ns = 250000000;
    s.has_new_track_score_threshold = 1; /* what the detector itself doubts begins no track */
    s.new_track_score_threshold = 0.5;
    s.has_min_birth_distance = 1; /* nor does a stray detection beside somebody who is followed already */
    s.min_birth_distance_m = 0.4;
    return s;
}

static const struct pk_track *find_track(const struct pk_tracker *t, uint64_t id)
{
    for (size_t i = 0; i < t->track_count; i++)
        if (t->tracks[i].id == id)
            return &t->tracks[i];
    return NULL;
}

static bool accepted(const struct pk_report *report)
{
    if (report->code != PK_DONE)
        fprintf(stderr, "floor: sensor %" PRIu32 "'s batch at %" PRId64 " ns was refused: %" PRIu32 "\n", report->sensor_id, report->timestamp, report->code);
    return report->code == PK_DONE;
}

/* ---- the guarantee: a far detection disturbs no track that stood before its batch */

/* Far is a detection that may pair with no track at the batch's time. A copy of the tracker is asked, with this detection alone in the batch: no class
 * prior is set, so a pair that may be made costs at most the gate, which is the cost of a track left alone, and is made. */
static bool is_far(const struct pk_batch *batch, size_t index)
{
    static struct pk_tracker copy;
    static struct pk_batch alone;
    copy = tracker;
    alone = *batch;
    alone.detections[0] = batch->detections[index];
    alone.count = 1;
    struct pk_report report = pk_process_batch(&copy, &alone);
    return report.code == PK_DONE && report.associations[0].outcome != PK_UPDATED;
}

/* Kept by both trackers with the same bits, or dropped by both. A pk_track has no padding: its bytes are its fields. */
static bool same_in_both(uint64_t id)
{
    const struct pk_track *a = find_track(&tracker, id), *b = find_track(&without_clutter, id);
    return a && b ? memcmp(a, b, sizeof *a) == 0 : !a && !b;
}

/* The batch to the tracker and, cut off before its clutter, to the other one. Both have the same tracks before it: clutter has begun none. */
static bool process_twice(const struct sighting *seen, struct pk_report *report)
{
    static struct pk_tracker before;
    static struct pk_batch cut;
    before = tracker;
    cut = seen->batch;
    cut.count = seen->real;
    for (size_t i = seen->real; i < seen->batch.count; i++)
        story.near_clutter += !is_far(&seen->batch, i);
    *report = pk_process_batch(&tracker, &seen->batch);
    struct pk_report other = pk_process_batch(&without_clutter, &cut);
    if (!accepted(report) || !accepted(&other))
        return false;
    for (size_t i = 0; i < before.track_count; i++)
        story.differing += !same_in_both(before.tracks[i].id);
    for (size_t i = 0; i < seen->real; i++) /* which track each real detection took or began, and at what cost */
        story.astray += memcmp(&report->associations[i], &other.associations[i], sizeof other.associations[i]) != 0;
    story.standing += before.track_count;
    story.batches++;
    return true;
}

/* ---- the story: what the table and the picture are made of */

static struct track_story *story_of(uint64_t id)
{
    for (size_t i = 0; i < story.track_count; i++)
        if (story.tracks[i].number == id)
            return &story.tracks[i];
    return NULL;
}

static void note_taken(const struct pk_association *a, int who, int64_t now)
{
    if (a->outcome == PK_SPAWNED && story.track_count < STORY_TRACKS)
        story.tracks[story.track_count++] = (struct track_story){.number = a->track_id, .who = who, .first = now};
    struct track_story *s = a->has_track ? story_of(a->track_id) : NULL;
    if (!s)
        return;
    s->swaps += s->who != who;
    s->who = who;
    s->last = now;
}

static void note_batch(const struct sighting *seen, const struct pk_report *report)
{
    for (size_t i = 0; i < seen->batch.count; i++) {
        const double *at = seen->batch.detections[i].position;
        const struct place p = {at[0], at[1]};
        if (i < seen->real)
            story.detections[story.detection_count++] = p;
        else
            story.clutter[story.clutter_count++] = p;
        note_taken(&report->associations[i], seen->who[i], report->timestamp);
    }
}

/* After each step: where every track is, and, once no head has seen it for more than 250 ms, that it was unseen all that time. */
static void note_places(int64_t now)
{
    for (size_t i = 0; i < story.track_count; i++) {
        struct track_story *s = &story.tracks[i];
        const struct pk_track *t = find_track(&tracker, s->number);
        s->lifecycle = t ? t->lifecycle : PK_DELETED;
        if (!t)
            continue;
        s->class_label = t->has_class ? t->class_label : 0;
        s->path[s->steps].at = (struct place){t->filter.state[0], t->filter.state[1]};
        s->path[s->steps++].seen = true;
        if (now - s->last < 100000000)
            s->to_last = s->steps;
        for (size_t k = s->to_last; now - s->last > 250000000 && k < s->steps; k++)
            s->path[k].seen = false;
    }
}

/* Two trackers under the same settings, and the minute, batch after batch. */
static bool run(void)
{
    static struct sighting seen;
    struct scene scene;
    struct pk_report report;
    struct pk_settings settings = shop_settings();
    if (pk_tracker_new(&tracker, settings) != PK_DONE || pk_tracker_new(&without_clutter, settings) != PK_DONE) {
        fprintf(stderr, "floor: field %" PRIu32 " of the settings is bad\n", pk_settings_check(settings));
        return false;
    }
    scene_start(&scene);
    for (int i = 0; i < STEPS * HEADS; i++) {
        scene_see(&scene, i % HEADS, i / HEADS, &seen);
        if (!process_twice(&seen, &report))
            return false;
        note_batch(&seen, &report);
        if (i % HEADS == HEADS - 1)
            note_places(seen.batch.timestamp);
    }
    return true;
}

/* ---- what is printed */

static bool print_tracks(void)
{
    static const char *const states[] = {"tentative", "confirmed", "lost", "gone"}, *const kinds[] = {"?", "person", "cart"};
    printf("track  kind    first   last    at the end  walked by  swaps\n");
    for (size_t i = 0; i < story.track_count; i++) {
        const struct track_story *s = &story.tracks[i];
        printf("%5" PRIu64 "  %-6s  ", s->number, kinds[s->class_label]);
        print_clock(stdout, s->first);
        printf("  ");
        print_clock(stdout, s->last);
        printf("  %-10s  %-9s  %5u\n", states[s->lifecycle], s->who == CLUTTER ? "nobody" : walkers[s->who].name, s->swaps);
        story.swaps += s->swaps;
    }
    printf("%d walkers, %zu tracks, %u swaps\n", WALKERS, story.track_count, story.swaps);
    return story.swaps == 0 && story.track_count == WALKERS;
}

static bool print_guarantee(void)
{
    printf("%zu batches with and without their clutter (%zu detections, %zu far): of %zu standing tracks %zu differ in a bit, of %zu real detections %zu in what they did\n",
           story.batches, story.clutter_count, story.clutter_count - story.near_clutter, story.standing, story.differing, story.detection_count, story.astray);
    return story.differing == 0 && story.astray == 0 && story.near_clutter == 0;
}

int main(int argc, char **argv)
{
    if (argc != 2) {
        fprintf(stderr, "usage: floor PICTURE.svg\n");
        return 2;
    }
    if (!run())
        return 1;
    bool followed = print_tracks(), undisturbed = print_guarantee();
    FILE *file = fopen(argv[1], "w");
    if (!file) {
        perror(argv[1]);
        return 1;
    }
    picture_draw(file, &story);
    return fclose(file) == 0 && followed && undisturbed ? 0 : 1;
}
