/* Message IDs, counted upwards over power cuts too, so that none is used again: a late answer to a Request that was aborted would end another of its ID. */
#ifndef IDS_H
#define IDS_H

#include <stdint.h>

typedef struct {
    int file;
    uint32_t next;
    uint32_t stored; /* as the medium has it: no ID from here on has been used */
} ids;

/* Goes on from what the file beside the store says, and not below `least`; ends the program with status 3 where it cannot be used. */
void ids_begin(ids *i, const char *store_path, uint32_t least);
uint32_t ids_next(ids *i);

#endif
