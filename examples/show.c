/* What a stored image holds, in words. */
#include "show.h"

#include "ldp_ft_text.h"
#include "store.h"
#include "wire.h"

#include <stdio.h>

/* A label with its prefix, where it has one: people at the desk know the blocks by their prefixes. */
static void show_label(uint32_t word, ldp_ft_prefix p) {
    char address[WIRE_ADDRESS_TEXT];
    wire_address_text(p.prefix, address);
    printf("label %u", (unsigned)LDP_FT_WORD_LABEL(word));
    if (p.indexed == 1) printf(" of %s/%u", address, (unsigned)p.length);
    printf(" %s\n", ldp_ft_code_text(LDP_FT_WORD_CODE(word)));
}

void show_labels(const uint8_t *image) {
    for (uint32_t place = 0; place < LDP_FT_LABEL_WORDS; place++) {
        uint32_t word = ldp_ft_label(image, LDP_FT_IMAGE_SIZE, place);
        ldp_ft_request r = ldp_ft_request_at(image, LDP_FT_IMAGE_SIZE, place);
        if (r.open == 1) printf("Request %u open\n", (unsigned)r.id);
        else if (word != 0) show_label(word, ldp_ft_prefix_at(image, LDP_FT_IMAGE_SIZE, place));
    }
}

/* The oldest has the number that follows `released`; those that are pended have none yet. */
static void show_held(const uint8_t *image, ldp_ft_summary s) {
    uint32_t number = s.released;
    for (uint32_t place = 0; place < s.held; place++) {
        number = ldp_ft_successor(number);
        ldp_ft_part part = ldp_ft_held(image, LDP_FT_IMAGE_SIZE, place);
        ldp_ft_message m = ldp_ft_message_read(image + part.start, part.end - part.start);
        printf("held %s", ldp_ft_kind_text(m.kind));
        if ((m.has & LDP_FT_HAS_LABEL) != 0) printf(" of label %u", (unsigned)m.label);
        if (m.kind == LDP_FT_KIND_REQUEST) printf(" %u", (unsigned)m.message_id);
        if (m.kind == LDP_FT_KIND_ABORT) printf(" for Request %u", (unsigned)m.request_id);
        if (place < s.held - s.pended) printf(", number %u\n", (unsigned)number);
        else puts(", not sent yet");
    }
}

int show(const char *path) {
    static uint8_t image[LDP_FT_IMAGE_SIZE];
    size_t length = store_read(path, image);
    if (length == 0) {
        printf("%s: cannot be read, or is empty\n", path);
        return 1;
    }
    if (length >= 4 && store_is_version_1(image)) {
        printf("%s: an image of version 1; the cabinet converts it when it begins with it\n", path);
        return 1;
    }
    ldp_ft_summary s = ldp_ft_summarize(image, length);
    if (s.answer != LDP_FT_DONE) {
        printf("%s: %s, block %u\n", path, ldp_ft_answer_text(s.answer), (unsigned)s.block);
        return 1;
    }
    printf("kept %u, released %u, issued %u, secured %u, held %u, pended %u, labels %u, timeout %u ms\n", (unsigned)s.kept, (unsigned)s.released,
           (unsigned)s.issued, (unsigned)s.secured, (unsigned)s.held, (unsigned)s.pended, (unsigned)s.labels, (unsigned)s.timeout);
    if ((s.marks & LDP_FT_MARK_STOPPED) != 0) puts("the peer has stopped our Requests");
    if ((s.marks & LDP_FT_MARK_STOPPING) != 0) puts("we have stopped the peer's Requests");
    show_labels(image);
    show_held(image, s);
    return 0;
}
