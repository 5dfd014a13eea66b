/* The image in memory and in a file, which stands for the cabinet's medium. */
#ifndef STORE_H
#define STORE_H

#include "ldp_ft.h"

typedef struct {
    uint8_t image[LDP_FT_IMAGE_SIZE];
    int file;
} store;

/* Begins with what the file holds, or with a new image where there is no file; what an earlier release left there is extended and converted. Gives the
   session to begin with; ends the program with status 3 where the file cannot be used, or another cabinet uses it: whether to give its labels up is not
   the program's to say. */
ldp_ft_session store_begin(store *s, const char *path);

/* Stores what an outcome tells, each block on the medium before the next is written. Output may leave when it returns. */
void store_outcome(store *s, ldp_ft_outcome o);

/* A file that was made beside the store is on the medium under its name. */
void store_sync_folder(const char *path);

/* True where an image of an earlier release is of version 1. */
int store_is_version_1(const uint8_t image[LDP_FT_IMAGE_SIZE]);

/* Reads a file's image to be looked at; the bytes that there are, at most an image's. */
size_t store_read(const char *path, uint8_t image[LDP_FT_IMAGE_SIZE]);

#endif
