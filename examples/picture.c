/* Draws the story as an SVG picture: the shop from above, one unit to the centimetre, on a panel of its own so that it reads on white and on dark. */
#include "picture.h"

#include <inttypes.h>

enum {
    LEFT = 190, TOP = 128, WIDTH = 1440, HEIGHT = 1040, /* the panel's margins before the shop, and its size */
    BADGES = -56, SLOT = 36                             /* where the badges of the door stand, and how far apart */
};

static const char *const colours[] = {"#1769b5", "#c9302c", "#1d8a3c", "#7b4bb3", "#d9740b", "#8a5a3c", "#0b8f9c", "#cc3d94"};

/* A place where a track begins or ends. */
struct mark {
    const struct track_story *track;
    const char *colour;
    struct place at;
    int64_t time;
    bool begins;
};

static double cm(double metres)
{
    return 100 * metres;
}

static const char *colour_of(size_t track)
{
    return colours[track % (sizeof colours / sizeof colours[0])];
}

void print_clock(FILE *file, int64_t ns)
{
    int tenths = (int)(ns / 100000000);
    fprintf(file, "%d:%02d.%d", tenths / 600, tenths / 10 % 60, tenths % 10);
}

/* ---- the shop */

static void draw_frame(FILE *f, const struct story *s)
{
    fprintf(f, "<svg xmlns='http://www.w3.org/2000/svg' viewBox='0 0 %d %d' font-family='system-ui, Helvetica, Arial, sans-serif' font-size='18' fill='#39424e'>\n", WIDTH,
            HEIGHT);
    fprintf(f, "<rect x='1' y='1' width='%d' height='%d' rx='18' fill='#fbfaf7' stroke='#cfd3d8' stroke-width='2'/>\n", WIDTH - 2, HEIGHT - 2);
    fprintf(f, "<text x='40' y='56' font-size='31' font-weight='600' fill='#1f2733'>A minute in a shop of 12 × 8 m, seen from above by two heads</text>\n");
    fprintf(f, "<text x='40' y='92' font-size='20'>%zu batches, %zu tracks, %u swaps. %zu clutter detections changed %s of a standing track.</text>\n", s->batches,
            s->track_count, s->swaps, s->clutter_count, s->differing ? "bits" : "no bit");
    fprintf(f, "<g transform='translate(%d %d)'>\n", LEFT, TOP);
}

/* The floor with its metres, and how far each head sees. */
static void draw_floor(FILE *f)
{
    fprintf(f, "<clipPath id='shop'><rect width='1200' height='800'/></clipPath>\n<rect width='1200' height='800' fill='#fff'/>\n");
    fprintf(f, "<path stroke='#eff0ee' stroke-width='1.5' d='");
    for (int x = 100; x < 1200; x += 100)
        fprintf(f, "M%d 0v800", x);
    for (int y = 100; y < 800; y += 100)
        fprintf(f, "M0 %dh1200", y);
    fprintf(f, "'/>\n<g clip-path='url(#shop)' fill='#5b8def' fill-opacity='.05' stroke='#5b8def' stroke-opacity='.35' stroke-dasharray='2 7' stroke-width='1.5'>\n");
    for (int h = 0; h < HEADS; h++)
        fprintf(f, "<circle cx='%.0f' cy='%.0f' r='%.0f'/>\n", cm(heads[h].at.x), cm(heads[h].at.y), cm(heads[h].reach));
    fprintf(f, "</g>\n");
}

/* Where a sight line from a head past a back corner of the shelf meets the wall behind it. */
static double shade_end(const struct head *head, double corner)
{
    return corner + (corner - head->at.x) * shelf.top / (head->at.y - shelf.top);
}

static void draw_shelf(FILE *f)
{
    double top = cm(shelf.top), left = cm(shelf.left), right = cm(shelf.right), middle = (left + right) / 2;
    double shade_left = cm(shade_end(&heads[0], shelf.left)), shade_right = cm(shade_end(&heads[1], shelf.right));
    fprintf(f, "<path fill='#e9e8e4' d='M%.0f %.0fH%.0fL%.1f 0H%.1fZ'/>\n", left, top, right, shade_right, shade_left);
    fprintf(f, "<rect x='%.0f' y='%.0f' width='%.0f' height='%.0f' rx='4' fill='#c9b79a' stroke='#8d7a5b' stroke-width='2'/>\n", left, top, right - left,
            cm(shelf.bottom) - top);
    fprintf(f, "<text x='%.0f' y='%.0f' text-anchor='middle' fill='#5d4c2f'>shelf</text>\n", middle, top + 31);
    fprintf(f, "<text x='%.0f' y='32' text-anchor='middle' font-size='16' fill='#77756c'>no head sees here</text>\n", middle);
}

/* The walls with the door and the window in them, and the heads. */
static void draw_walls(FILE *f)
{
    double top = cm(door_top), bottom = cm(door_bottom);
    fprintf(f, "<path fill='none' stroke='#39424e' stroke-width='7' stroke-linejoin='round' d='M0 %.0fV0H1200V800H0V%.0f'/>\n", top, bottom);
    fprintf(f, "<path fill='none' stroke='#a9d8f5' stroke-width='7' d='M1200 %.0fV800H%.0f'/>\n", cm(pane.top), cm(pane.left));
    fprintf(f, "<path stroke='#39424e' stroke-width='1.5' stroke-dasharray='4 6' d='M0 %.0fV%.0f'/>\n<text x='14' y='%.0f'>door</text>\n", top, bottom, bottom + 26);
    for (int h = 0; h < HEADS; h++)
        fprintf(f, "<g transform='translate(%.0f %.0f)'><circle r='13' fill='#1f2733'/><circle r='5' fill='#8fd3ff'/><text y='35' text-anchor='middle'>head %d</text></g>\n",
                cm(heads[h].at.x), cm(heads[h].at.y), h + 1);
}

/* ---- what the heads reported */

static void draw_detections(FILE *f, const struct story *s)
{
    fprintf(f, "<path fill='none' stroke='#4b5563' stroke-opacity='.38' stroke-width='3' stroke-linecap='round' d='");
    for (size_t i = 0; i < s->detection_count; i++)
        fprintf(f, "M%.0f %.0fh0", cm(s->detections[i].x), cm(s->detections[i].y));
    fprintf(f, "'/>\n<path fill='none' stroke='#1f2733' stroke-opacity='.7' stroke-width='1.8' d='");
    for (size_t i = 0; i < s->clutter_count; i++)
        fprintf(f, "M%.0f %.0fl8 8m-8 0l8-8", cm(s->clutter[i].x) - 4, cm(s->clutter[i].y) - 4);
    fprintf(f, "'/>\n");
}

/* ---- the tracks */

/* Whether a track was seen from a place to the next. */
static bool seen_from(const struct track_story *t, size_t i)
{
    return t->path[i].seen && t->path[i + 1].seen;
}

/* One stretch of a track, seen or unseen, from place `i` on; gives the place where it ends and the next one begins. */
static size_t draw_stretch(FILE *f, const struct track_story *t, size_t i)
{
    bool seen = seen_from(t, i);
    fprintf(f, "<path%s d='M%.1f %.1f", seen ? "" : " stroke-dasharray='11 10'", cm(t->path[i].at.x), cm(t->path[i].at.y));
    while (i + 1 < t->to_last && seen_from(t, i) == seen) {
        i++;
        fprintf(f, "L%.1f %.1f", cm(t->path[i].at.x), cm(t->path[i].at.y));
    }
    fprintf(f, "'/>\n");
    return i;
}

static void draw_tracks(FILE *f, const struct story *s)
{
    for (size_t i = 0; i < s->track_count; i++) {
        fprintf(f, "<g fill='none' stroke='%s' stroke-width='4' stroke-linecap='round' stroke-linejoin='round'>\n", colour_of(i));
        for (size_t at = 0; at + 1 < s->tracks[i].to_last;)
            at = draw_stretch(f, &s->tracks[i], at);
        fprintf(f, "</g>\n");
    }
}

/* ---- where they begin and end */

static size_t collect_marks(const struct story *s, struct mark *marks)
{
    size_t count = 0;
    for (size_t i = 0; i < s->track_count; i++) {
        const struct track_story *t = &s->tracks[i];
        if (t->to_last == 0)
            continue;
        marks[count++] = (struct mark){t, colour_of(i), t->path[0].at, t->first, true};
        marks[count++] = (struct mark){t, colour_of(i), t->path[t->to_last - 1].at, t->last, false};
    }
    return count;
}

/* From the top down, by insertion: their lines to the margin then cross nowhere. */
static void sort_marks(struct mark *marks, size_t count)
{
    for (size_t i = 1; i < count; i++)
        for (size_t j = i; j > 0 && marks[j].at.y < marks[j - 1].at.y; j--) {
            struct mark m = marks[j];
            marks[j] = marks[j - 1];
            marks[j - 1] = m;
        }
}

/* The track's number in a sign of its colour, round for people and square for carts, filled where it begins; its time on one side. */
static void draw_badge(FILE *f, const struct mark *m, double x, double y, bool time_on_left)
{
    fprintf(f, "<g transform='translate(%.0f %.0f)'><rect x='-14' y='-14' width='28' height='28' rx='%d' fill='%s' stroke='%s' stroke-width='3'/>", x, y,
            m->track->class_label == CART ? 4 : 14, m->begins ? m->colour : "#fff", m->colour);
    fprintf(f, "<text y='6' text-anchor='middle' font-weight='700' fill='%s'>%" PRIu64 "</text>", m->begins ? "#fff" : m->colour, m->track->number);
    fprintf(f, "<text x='%d' y='6' text-anchor='%s' font-size='17'>", time_on_left ? -22 : 22, time_on_left ? "end" : "start");
    print_clock(f, m->time);
    fprintf(f, "</text></g>\n");
}

/* At the door all are close together: each gets a badge in the margin and a line to it. */
static void draw_door_mark(FILE *f, const struct mark *m, double slot)
{
    double x = cm(m->at.x), y = cm(m->at.y);
    fprintf(f, "<path fill='none' stroke='%s' stroke-width='1.8' d='M%d %.1fC%d %.1f -25 %.1f %.1f %.1f'/>\n", m->colour, BADGES + 15, slot, BADGES + 45, slot, y, x, y);
    fprintf(f, "<circle cx='%.1f' cy='%.1f' r='5.5' fill='%s' stroke='%s' stroke-width='2.5'/>\n", x, y, m->begins ? m->colour : "#fff", m->colour);
    draw_badge(f, m, BADGES, slot, true);
}

/* Which way a track came to its end, by its last place more than 40 cm away: the time stands on the other side. */
static bool comes_from_right(const struct track_story *t)
{
    struct place end = t->path[t->to_last - 1].at;
    double dx = 0, dy = 0;
    for (size_t i = t->to_last; i-- > 0 && dx * dx + dy * dy < 0.16;) {
        dx = t->path[i].at.x - end.x;
        dy = t->path[i].at.y - end.y;
    }
    return dx > 0;
}

static bool at_door(const struct mark *m)
{
    return m->at.x < 0.6;
}

static void draw_marks(FILE *f, const struct story *s)
{
    struct mark marks[2 * STORY_TRACKS];
    size_t count = collect_marks(s, marks), door_marks = 0;
    sort_marks(marks, count);
    for (size_t i = 0; i < count; i++)
        door_marks += at_door(&marks[i]);
    double slot = cm(door_top + door_bottom) / 2 - SLOT * ((double)door_marks - 1) / 2;
    for (size_t i = 0; i < count; i++) {
        const struct mark *m = &marks[i];
        if (at_door(m)) {
            draw_door_mark(f, m, slot);
            slot += SLOT;
        } else
            draw_badge(f, m, cm(m->at.x), cm(m->at.y), comes_from_right(m->track));
    }
}

/* ---- the legend */

static void draw_legend(FILE *f)
{
    static const struct {
        int x;
        const char *sign, *text;
    } items[] = {
        {-130, "<circle r='12' fill='#5c6672'/>", "first seen"},
        {28, "<circle r='11' fill='#fff' stroke='#5c6672' stroke-width='3'/>", "last seen"},
        {180, "<rect x='-11' y='-11' width='22' height='22' rx='4' fill='#5c6672'/>", "a cart"},
        {312, "<path stroke='#5c6672' stroke-width='4' stroke-linecap='round' d='M-18 0h36'/>", "track"},
        {464, "<path stroke='#5c6672' stroke-width='4' stroke-linecap='round' stroke-dasharray='11 10' d='M-38 0h54'/>", "unseen, predicted"},
        {704, "<path stroke='#4b5563' stroke-opacity='.6' stroke-width='3.4' stroke-linecap='round' d='M-4 3h0M4-6h0M6 5h0M13-1h0'/>", "detections"},
        {872, "<path stroke='#1f2733' stroke-width='1.8' d='M4-5l10 10m-10 0l10-10'/>", "clutter, far from every track"},
    };
    fprintf(f, "<g transform='translate(0 858)'>\n");
    for (size_t i = 0; i < sizeof items / sizeof items[0]; i++)
        fprintf(f, "<g transform='translate(%d 0)'>%s<text x='28' y='6'>%s</text></g>\n", items[i].x, items[i].sign, items[i].text);
    fprintf(f, "</g>\n");
}

void picture_draw(FILE *file, const struct story *story)
{
    draw_frame(file, story);
    draw_floor(file);
    draw_shelf(file);
    draw_walls(file);
    draw_detections(file, story);
    draw_tracks(file, story);
    draw_marks(file, story);
    draw_legend(file);
    fprintf(file, "</g>\n</svg>\n");
}
