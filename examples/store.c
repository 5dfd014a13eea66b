/* A file whose blocks are written whole, in place and one by one. That a block of 512 bytes is written whole or not at all is what sectors of disks
   give; a medium that does not must keep two copies of a block, or a journal. */
#include "store.h"

#include "ldp_ft_text.h"

#include <errno.h>
#include <fcntl.h>
#include <libgen.h>
#include <stdio.h>
#include <stdlib.h>
#include <string.h>
#include <sys/file.h>
#include <unistd.h>

/* A cabinet that cannot store must not speak. */
static void give_up(const char *what, const char *why) {
    fprintf(stderr, "cabinet: %s: %s\n", what, why);
    exit(3);
}

static void check(int done, const char *what) {
    if (!done) give_up(what, strerror(errno));
}

static void write_block(store *s, uint32_t block) {
    off_t at = (off_t)block * LDP_FT_BLOCK_SIZE;
    check(pwrite(s->file, s->image + at, LDP_FT_BLOCK_SIZE, at) == LDP_FT_BLOCK_SIZE, "store");
    check(fdatasync(s->file) == 0, "store");
}

/* The blocks behind the slots, one for each bit. */
static void write_further(store *s, uint32_t further) {
    for (uint32_t block = LDP_FT_REQUEST_BLOCK; further != 0; block++, further >>= 1) {
        if ((further & 1) != 0) write_block(s, block);
    }
}

void store_outcome(store *s, ldp_ft_outcome o) {
    if (o.slot != 0) write_block(s, o.slot);
    write_further(s, o.further);
    if (o.block0 != 0) write_block(s, 0);
}

void store_sync_folder(const char *path) {
    char folder[4096];
    check(snprintf(folder, sizeof folder, "%s", path) < (int)sizeof folder, "path of the store");
    int directory = open(dirname(folder), O_RDONLY);
    check(directory >= 0 && fsync(directory) == 0, folder);
    close(directory);
}

/* Two cabinets with one store would each speak of what the other has not stored. The lock is the file's, under whatever name, and goes with the process. */
static void lock(const store *s, const char *path) {
    if (flock(s->file, LOCK_EX | LOCK_NB) == 0) return;
    give_up(path, errno == EWOULDBLOCK ? "another cabinet is at work with this store" : strerror(errno));
}

/* The file gets its name when all of it is there: a power cut leaves no half image. Who has the lock of the new file and sees none of that name is the only
   one to make it. */
static void create(store *s, const char *path) {
    char new_path[4096];
    check(snprintf(new_path, sizeof new_path, "%s.new", path) < (int)sizeof new_path, "path of the store");
    ldp_ft_format(s->image, sizeof s->image);
    s->file = open(new_path, O_RDWR | O_CREAT, 0600);
    check(s->file >= 0, new_path);
    lock(s, path);
    if (access(path, F_OK) == 0) give_up(path, "another cabinet has just made this store");
    check(ftruncate(s->file, 0) == 0 && write(s->file, s->image, sizeof s->image) == (ssize_t)sizeof s->image, new_path);
    check(fsync(s->file) == 0 && rename(new_path, path) == 0, path);
    store_sync_folder(path);
}

static size_t read_file(int file, uint8_t image[LDP_FT_IMAGE_SIZE]) {
    size_t length = 0;
    for (;;) {
        ssize_t n = pread(file, image + length, LDP_FT_IMAGE_SIZE - length, (off_t)length);
        check(n >= 0, "read the store");
        if (n == 0) return length;
        length += (size_t)n;
    }
}

static void refuse_image(const char *path, uint32_t answer, uint32_t block) {
    fprintf(stderr, "cabinet: block %u of the store:\n", (unsigned)block);
    give_up(path, ldp_ft_answer_text(answer));
}

/* Earlier releases stored fewer blocks. */
static size_t extend(store *s, size_t length) {
    ldp_ft_extended e = ldp_ft_extend(s->image, sizeof s->image, length);
    if (e.answer != LDP_FT_DONE) return length;
    write_further(s, e.further);
    return sizeof s->image;
}

int store_is_version_1(const uint8_t image[LDP_FT_IMAGE_SIZE]) {
    static const uint8_t version_1[4] = {0, 0, 0, 1};
    return memcmp(image, version_1, sizeof version_1) == 0;
}

/* Releases before 3.0.0 stored version 1. It is converted into a second buffer, and block 0, which alone differs, is stored: a power cut before that leaves
   the image of version 1, which is converted the next time. With 16 the last of its 120 label words is in use: the earlier release has to give it up. */
static void convert(store *s, const char *path) {
    static uint8_t converted[LDP_FT_IMAGE_SIZE];
    ldp_ft_converted c = ldp_ft_convert_forward(s->image, sizeof s->image, converted, sizeof converted);
    if (c.answer != LDP_FT_DONE) refuse_image(path, c.answer, c.block);
    memcpy(s->image, converted, sizeof s->image);
    write_block(s, 0);
    printf("converted %s from version 1 to version 2\n", path);
}

ldp_ft_session store_begin(store *s, const char *path) {
    s->file = open(path, O_RDWR);
    if (s->file < 0 && errno == ENOENT) create(s, path);
    check(s->file >= 0, path);
    lock(s, path);
    size_t length = read_file(s->file, s->image);
    if (length < sizeof s->image) length = extend(s, length);
    if (length == sizeof s->image && store_is_version_1(s->image)) convert(s, path);
    ldp_ft_outcome o = ldp_ft_restore(s->image, length);
    if (o.answer != LDP_FT_DONE) refuse_image(path, o.answer, o.block);
    store_outcome(s, o);
    return o.session;
}

/* A cabinet may be storing meanwhile: what is read twice alike stood there. It waits for its medium after each block, so that comes soon. */
size_t store_read(const char *path, uint8_t image[LDP_FT_IMAGE_SIZE]) {
    static uint8_t again[LDP_FT_IMAGE_SIZE];
    size_t length = 0, before = 1;
    int file = open(path, O_RDONLY);
    if (file < 0) return 0;
    while (length != before || memcmp(again, image, length) != 0) {
        memcpy(again, image, sizeof again);
        before = length;
        length = read_file(file, image);
    }
    close(file);
    return length;
}
