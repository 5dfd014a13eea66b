/* TCP MD5 signatures (RFC 2385; RFC 3036, 2.9): with a key that both ends have the kernel signs every segment, and drops each that is not signed with it. */
#ifndef MD5_H
#define MD5_H

#include <stddef.h>
#include <stdint.h>

#define MD5_KEY_MAX 80 /* what the kernel takes */

typedef struct {
    uint8_t bytes[MD5_KEY_MAX];
    size_t length; /* 0: nothing is signed */
} md5_key;

/* Reads a key from a file: its first line, 1 to 80 bytes. NULL, or why there is none. */
const char *md5_read(md5_key *key, const char *path);

/* From now on segments to and from that address are signed on this socket, and on those that it accepts; with no key there is nothing to do. 0 where the
   kernel does not sign. */
int md5_set(int socket, uint32_t peer, const md5_key *key);

#endif
