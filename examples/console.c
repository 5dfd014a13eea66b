#include "console.h"

#include <errno.h>
#include <stdio.h>
#include <stdlib.h>
#include <string.h>
#include <unistd.h>

uint32_t console_number(const char *text, uint32_t greatest) {
    char *end;
    unsigned long number = strtoul(text, &end, 10);
    return *text < '0' || *text > '9' || *end != 0 || number > greatest ? greatest + 1 : (uint32_t)number;
}

static uint32_t label_of(const char *text) {
    return console_number(text, LDP_FT_LABEL_LAST);
}

/* A message ID; the greatest that there is where the text is none. */
static uint32_t id_of(const char *text) {
    return console_number(text, UINT32_MAX - 1);
}

static int prefix_of(const char *text, wire_prefix *prefix) {
    if (wire_read_prefix(text, prefix)) return 1;
    say("no prefix: %s", text);
    return 0;
}

static void give(cabinet *c, const char *label, const char *prefix) {
    wire_prefix p;
    if (prefix_of(prefix, &p)) labels_give(c, label_of(label), p);
}

static void answer(cabinet *c, const char *label, const char *prefix, const char *id) {
    wire_prefix p;
    if (prefix_of(prefix, &p)) labels_answer(c, label_of(label), p, id_of(id));
}

static void ask(cabinet *c, const char *prefix) {
    wire_prefix p;
    if (prefix_of(prefix, &p)) requests_ask(c, p);
}

static void command(cabinet *c, const char *line) {
    char word[16] = "", object[32] = "", prefix[32] = "", four[16] = "", id[16] = "", behind;
    int count = sscanf(line, "%15s %31s %31s %15s %15s %c", word, object, prefix, four, id, &behind);
    if (count == 3 && strcmp(word, "give") == 0) give(c, object, prefix);
    else if (count == 5 && strcmp(word, "give") == 0 && strcmp(four, "for") == 0) answer(c, object, prefix, id);
    else if (count == 2 && strcmp(word, "withdraw") == 0) labels_take_back(c, label_of(object));
    else if (count == 2 && strcmp(word, "ask") == 0) ask(c, object);
    else if (count == 2 && strcmp(word, "abort") == 0) requests_abort(c, id_of(object));
    else if (count == 1 && strcmp(word, "labels") == 0) labels_print(c);
    else if (count == 1 && strcmp(word, "cut") == 0) cabinet_lost(c, "cut from the console");
    else if (count == 1 && strcmp(word, "quit") == 0) exit(0);
    else if (count > 0) say("not understood: %s", word);
    cabinet_send_held(c);
}

int console_read(cabinet *c) {
    static char text[256];
    static size_t length;
    ssize_t n = read(STDIN_FILENO, text + length, sizeof text - 1 - length);
    if (n <= 0) return n < 0 && errno == EINTR;
    length += (size_t)n;
    text[length] = 0;
    char *line = text;
    for (char *end; (end = strchr(line, '\n')) != NULL; line = end + 1) {
        *end = 0;
        command(c, line);
    }
    length = line == text && length == sizeof text - 1 ? 0 : strlen(line); /* a line that is too long is dropped */
    memmove(text, line, length);
    return 1;
}
