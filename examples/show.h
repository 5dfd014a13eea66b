#ifndef SHOW_H
#define SHOW_H

#include <stdint.h>

/* Prints what the image in a file holds; the status to end with: 0, or 1 where it is refused. */
int show(const char *path);
/* Prints the label words of an image that is not refused, and its open Requests by their IDs. */
void show_labels(const uint8_t *image);

#endif
