/* A minute in a shop that is made up: people and a cart on fixed ways, and two heads that see them with noise, misses and clutter. It uses no
 * random numbers but its own and no mathematics but + - * /, so it is the same on every machine. Metres and seconds; x to the right, y down. */
#ifndef SCENE_H
#define SCENE_H

#include <stdbool.h>

#include "pikowhanu.h"

enum { WALKERS = 8, HEADS = 2, STEPS = 600, CLUTTER = -1 };
enum { PERSON = 1, CART = 2 }; /* the class labels that head 1 gives */

struct place {
    double x, y;
};
struct box {
    double left, top, right, bottom;
};
struct walker {
    const char *name;
    uint32_t class_label;
    struct stop {
        double time, x, y;
    } way[10]; /* ends at its last place or where a time is 0 */
};
struct head {
    struct place at;
    uint32_t sensor;
    double reach, deviation; /* how far it sees; the standard deviation of a coordinate */
    int64_t delay_ns;        /* after the step's time */
    bool classifies;
};

extern const struct box shop, shelf, pane; /* the pane of a window in a corner, and the floor before it */
extern const double door_top, door_bottom; /* in the wall at x = 0 */
extern const struct walker walkers[WALKERS];
extern const struct head heads[HEADS];

/* What a head reports, and what only the scene knows: who each detection really is. Clutter stands last in the batch. */
struct sighting {
    struct pk_batch batch;
    size_t real; /* detections of walkers; the others are clutter */
    int who[PK_MAX_DETECTIONS];
};
/* Between two sightings: the numbers still to come, and each head's last sequence number. */
struct scene {
    uint64_t random, sequence[HEADS];
};

void scene_start(struct scene *scene);
/* What head `h` sees at a step of 100 ms, into *out. */
void scene_see(struct scene *scene, int h, int step, struct sighting *out);

#endif
