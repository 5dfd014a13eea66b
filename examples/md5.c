#include "md5.h"

#include "connection.h"

#include <errno.h>
#include <netinet/in.h>
#include <netinet/tcp.h>
#include <stdio.h>
#include <string.h>
#include <sys/socket.h>
#include <unistd.h>

int md5_set(int socket, uint32_t peer, const md5_key *key) {
    struct tcp_md5sig signature;
    struct sockaddr_in at = socket_place(peer, 0);
    if (key->length == 0) return 1;
    memset(&signature, 0, sizeof signature);
    memcpy(&signature.tcpm_addr, &at, sizeof at);
    memcpy(signature.tcpm_key, key->bytes, key->length);
    signature.tcpm_keylen = (uint16_t)key->length;
    return setsockopt(socket, IPPROTO_TCP, TCP_MD5SIG, &signature, sizeof signature) == 0;
}

/* A cabinet that has a key never speaks unsigned: whether the kernel signs is tried before anything is asked of it. */
static int kernel_signs(const md5_key *key) {
    int fd = socket(AF_INET, SOCK_STREAM, 0);
    int signs = fd >= 0 && md5_set(fd, INADDR_LOOPBACK, key);
    if (fd >= 0) close(fd);
    return signs;
}

const char *md5_read(md5_key *key, const char *path) {
    char line[MD5_KEY_MAX + 2];
    FILE *file = fopen(path, "r");
    if (file == NULL) return strerror(errno);
    char *read = fgets(line, sizeof line, file);
    fclose(file);
    if (read == NULL) return "a key is the first line of its file";
    key->length = strcspn(line, "\n");
    if (key->length == 0 || key->length > MD5_KEY_MAX) return "a key has 1 to 80 bytes";
    memcpy(key->bytes, line, key->length);
    return kernel_signs(key) ? NULL : "this kernel does not sign TCP segments (RFC 2385)";
}
