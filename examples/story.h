/* What is kept of a minute on the floor: each track with the places it was at and who really walked it, all detections, and what was counted. */
#ifndef STORY_H
#define STORY_H

#include "scene.h"

enum { STORY_TRACKS = 32, STORY_DETECTIONS = STEPS * HEADS * (WALKERS + 1) };

struct track_story {
    uint64_t number;
    uint32_t class_label;  /* 0 while no head has said */
    int who;               /* the walker of the last detection that it took */
    unsigned swaps;        /* how often that was another one than before */
    uint32_t lifecycle;    /* PK_DELETED once it is gone */
    int64_t first, last;   /* when it was seen */
    size_t steps, to_last; /* places kept, and how many of them up to where it was last seen */
    struct {
        struct place at;
        bool seen;
    } path[STEPS];
};

struct story {
    struct track_story tracks[STORY_TRACKS];
    struct place detections[STORY_DETECTIONS], clutter[STORY_DETECTIONS];
    size_t track_count, detection_count, clutter_count;
    size_t near_clutter;                 /* clutter that was not far from every track */
    size_t batches, standing, differing; /* batches and standing tracks compared, and tracks that differed */
    size_t astray;                       /* real detections that did not do the same with clutter as without */
    unsigned swaps;
};

#endif
