#include "ids.h"

#include "store.h"
#include "wire.h"

#include <errno.h>
#include <fcntl.h>
#include <stdio.h>
#include <stdlib.h>
#include <string.h>
#include <unistd.h>

#define AHEAD 1024 /* so many IDs are used up by one store, and by a power cut */

static void check(int done) {
    if (done) return;
    fprintf(stderr, "cabinet: the message IDs beside the store: %s\n", strerror(errno));
    exit(3);
}

/* Before an ID is used the medium says that it is. */
static void reserve(ids *i) {
    uint8_t bytes[4];
    i->stored = i->next + AHEAD;
    wire_put32(bytes, i->stored);
    check(pwrite(i->file, bytes, sizeof bytes, 0) == (ssize_t)sizeof bytes && fdatasync(i->file) == 0);
}

void ids_begin(ids *i, const char *store_path, uint32_t least) {
    char path[4096];
    uint8_t bytes[4];
    check(snprintf(path, sizeof path, "%s.ids", store_path) < (int)sizeof path);
    i->file = open(path, O_RDWR | O_CREAT, 0600);
    check(i->file >= 0);
    i->next = pread(i->file, bytes, sizeof bytes, 0) == (ssize_t)sizeof bytes ? wire_get32(bytes) : 0;
    if (i->next < least) i->next = least;
    reserve(i);
    store_sync_folder(path);
}

uint32_t ids_next(ids *i) {
    if (i->next == i->stored) reserve(i);
    return i->next++;
}
