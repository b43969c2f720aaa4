/* The picture of the growth. */
#ifndef PICTURE_H
#define PICTURE_H

#include "measure.h"

/* Writes an SVG with a panel for each input on which more than one method was raced; 0 if it cannot be written. */
int growth_picture(const char *path, const panel *all, int count);

#endif
