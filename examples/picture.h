/* Draws a minute on the floor as an SVG picture. */
#ifndef PICTURE_H
#define PICTURE_H

#include <stdio.h>

#include "story.h"

/* Minutes, seconds and tenths. */
void print_clock(FILE *file, int64_t ns);
void picture_draw(FILE *file, const struct story *story);

#endif
