/* The made-up minute of scene.h: who walks where, what hides them, and what the heads make of it. */
#include "scene.h"

#include <string.h>

const struct box shop = {0, 0, 12, 8}, shelf = {4.2, 1.8, 7.8, 2.3}, pane = {10.1, 6.1, 11.85, 7.85};
const double door_top = 3.0, door_bottom = 5.4;
static const double missed = 0.08, clutter_rate = 0.2, people_height = 1.4;

const struct head heads[HEADS] = {
    {{3.3, 5.2}, 11, 6.2, 0.03, 0, true},
    {{8.7, 5.2}, 12, 6.2, 0.05, 40000000, false},
};

const struct walker walkers[WALKERS] = {
    {"Ana", PERSON, {{0.6, -0.6, 3.7}, {3.4, 2.6, 3.7}, {9.6, 8.9, 6.3}, {25.0, 8.9, 6.3}, {29.6, 4.0, 7.2}, {32.6, 1.3, 5.7}, {34.6, -0.6, 5.1}}},
    {"Ben", PERSON, {{5.0, -0.6, 3.7}, {7.5, 1.6, 2.2}, {9.0, 2.4, 0.7}, {15.0, 9.6, 0.7}, {16.9, 11.1, 2.4}, /* behind the shelf */
                     {35.8, 11.1, 2.4}, {38.7, 8.3, 4.1}, {40.8, 6.7, 5.9}, {60.0, 6.7, 5.9}}},
    {"Cleo", PERSON, {{11.4, -0.6, 4.35}, {13.8, 2.2, 4.15}, {18.6, 7.8, 4.6}, {21.4, 11.0, 4.9}, {60.0, 11.0, 4.9}}}, /* meets Dev */
    {"Dev", PERSON, {{2.4, -0.6, 3.9}, {5.0, 2.2, 3.9}, {9.4, 7.0, 3.3}, {13.2, 7.0, 3.3}, {15.4, 4.6, 4.6}, {17.4, 2.4, 4.75}, {20.0, -0.6, 4.95}}},
    {"Eve", PERSON, {{18.6, -0.6, 3.55}, {21.4, 2.6, 3.1}, {26.8, 8.8, 2.8}, {28.0, 10.0, 2.3}, {28.9, 10.0, 1.25}, /* round the shelf and behind it */
                     {29.4, 9.5, 1.15}, {34.6, 3.2, 1.15}, {36.2, 1.4, 2.2}, {37.4, 0.3, 3.1}, {38.2, -0.6, 3.2}}},
    {"Finn", PERSON, {{24.6, -0.6, 4.2}, {27.8, 2.4, 6.2}, {32.0, 6.6, 7.1}, {37.0, 6.6, 7.1}, {40.8, 8.0, 3.3}, {60.0, 8.0, 3.3}}}, /* then meets Ben */
    {"the cart", CART, {{24.0, -0.6, 4.2}, {27.2, 2.4, 6.2}, {32.0, 7.3, 7.2}, {60.0, 7.3, 7.2}}}, /* pushed by Finn */
    {"Gil", PERSON, {{30.0, -0.6, 3.95}, {32.6, 2.4, 4.35}, {35.0, 5.0, 5.0}, {47.0, 5.0, 5.0}, {51.0, 2.4, 6.8}, {60.0, 2.4, 6.8}}},
};

/* ---- random numbers: splitmix64 */
static uint64_t next_random(struct scene *scene)
{
    uint64_t z = scene->random += 0x9E3779B97F4A7C15u;
    z = (z ^ (z >> 30)) * 0xBF58476D1CE4E5B9u;
    z = (z ^ (z >> 27)) * 0x94D049BB133111EBu;
    return z ^ (z >> 31);
}

/* From 0 to just below 1. */
static double uniform(struct scene *scene)
{
    return (double)(next_random(scene) >> 11) * 0x1p-53;
}

/* Twelve uniform numbers have a variance of 1 and nearly the bell's shape, on every machine alike: no logarithm, no cosine. */
static double normal(struct scene *scene)
{
    double sum = -6;
    for (int i = 0; i < 12; i++)
        sum += uniform(scene);
    return sum;
}

/* ---- where somebody is, and who sees them */
static struct place between(const struct stop *from, const struct stop *to, double time)
{
    double part = (time - from->time) / (to->time - from->time);
    return (struct place){from->x + part * (to->x - from->x), from->y + part * (to->y - from->y)};
}

/* Straight from stop to stop; at the first place before the way begins, at the last one after it. */
static struct place along(const struct walker *w, double time)
{
    const size_t stops = sizeof w->way / sizeof w->way[0];
    size_t i = 0;
    while (i + 1 < stops && w->way[i + 1].time > 0 && w->way[i + 1].time <= time)
        i++;
    bool on_the_way = time > w->way[i].time && i + 1 < stops && w->way[i + 1].time > 0;
    return on_the_way ? between(&w->way[i], &w->way[i + 1], time) : (struct place){w->way[i].x, w->way[i].y};
}

/* The mean over a second, so that nobody turns or stops at once. */
static struct place where(const struct walker *w, double time)
{
    struct place mean = {0, 0};
    for (int i = -5; i <= 5; i++) {
        struct place p = along(w, time + i * 0.1);
        mean.x += p.x / 11;
        mean.y += p.y / 11;
    }
    return mean;
}

/* Whether the shelf stands between a head in front of it and a place: the sight line's part as deep as the shelf meets the shelf. */
static bool hidden(const struct head *head, struct place p)
{
    if (p.y >= shelf.bottom)
        return false;
    double depth = p.y > shelf.top ? p.y : shelf.top, run = (p.x - head->at.x) / (p.y - head->at.y);
    double near = head->at.x + run * (shelf.bottom - head->at.y), far = head->at.x + run * (depth - head->at.y);
    double left = near < far ? near : far, right = near < far ? far : near;
    return right > shelf.left && left < shelf.right;
}

static bool sees(const struct head *head, struct place p)
{
    double dx = p.x - head->at.x, dy = p.y - head->at.y;
    return p.x > shop.left && dx * dx + dy * dy < head->reach * head->reach && !hidden(head, p);
}

/* ---- what a head reports */
static void report(struct scene *scene, const struct head *head, struct place p, double height, double score, struct sighting *out)
{
    struct pk_detection *d = &out->batch.detections[out->batch.count++];
    const double exact[3] = {p.x, p.y, height};
    *d = (struct pk_detection){.has_score = 1, .score = score};
    for (int i = 0; i < 3; i++) {
        d->position[i] = exact[i] + head->deviation * normal(scene);
        d->covariance[4 * i] = head->deviation * head->deviation;
    }
}

static void report_walker(struct scene *scene, const struct head *head, int w, double time, struct sighting *out)
{
    struct place p = where(&walkers[w], time);
    if (!sees(head, p) || uniform(scene) < missed)
        return;
    double score = 0.75 + 0.24 * uniform(scene);
    out->who[out->batch.count] = w;
    report(scene, head, p, walkers[w].class_label == CART ? 0.6 : people_height, score, out);
    struct pk_detection *d = &out->batch.detections[out->batch.count - 1];
    d->has_class = head->classifies;
    d->class_label = walkers[w].class_label;
}

/* Glare in the corner's window, which a detector takes for somebody now and then, and never for somebody clear. */
static void report_clutter(struct scene *scene, const struct head *head, struct sighting *out)
{
    double u = uniform(scene), v = uniform(scene);
    bool beyond = u + v > 1; /* the triangle in the corner: its other half is folded back */
    struct place p = {pane.right - (pane.right - pane.left) * (beyond ? 1 - u : u), pane.bottom - (pane.bottom - pane.top) * (beyond ? 1 - v : v)};
    if (uniform(scene) >= clutter_rate || !sees(head, p))
        return;
    double score = 0.3 * uniform(scene);
    out->who[out->batch.count] = CLUTTER;
    report(scene, head, p, people_height, score, out); /* as high as people: only the floor keeps it far from them */
}

void scene_start(struct scene *scene)
{
    *scene = (struct scene){.random = 7};
}

void scene_see(struct scene *scene, int h, int step, struct sighting *out)
{
    const struct head *head = &heads[h];
    memset(out, 0, sizeof *out); /* a batch must be initialised as a whole */
    out->batch.sensor_id = head->sensor;
    out->batch.sequence = ++scene->sequence[h];
    out->batch.timestamp = step * INT64_C(100000000) + head->delay_ns;
    out->batch.frame = pk_settings_default().frame;
    for (int w = 0; w < WALKERS; w++)
        report_walker(scene, head, w, (double)out->batch.timestamp / 1e9, out);
    out->real = out->batch.count;
    report_clutter(scene, head, out);
}
