/* The texts of ldp_ft_text.h: one for every number that ldp_ft.h names, none twice, and "unknown" for every other. */
#include "ldp_ft_text.h"
#include "trial.h"

#include <string.h>

typedef const char *text_of(uint32_t number);

static int is_known(text_of *text, uint32_t number) {
    return strcmp(text(number), "unknown") != 0;
}

/* Of the numbers below `end` so many have a text, and no two the same one. */
static void expect_texts(text_of *text, uint32_t end, uint32_t wanted, const char *what) {
    uint32_t known = 0;
    for (uint32_t n = 0; n < end; n++) {
        known += is_known(text, n) ? 1 : 0;
        for (uint32_t m = 0; m < n; m++) expect(is_known(text, n) && strcmp(text(n), text(m)) == 0, 0, what);
    }
    expect(known, wanted, what);
    expect((uint32_t)is_known(text, LDP_FT_NONE), 0, what);
}

static void expect_text(const char *text, const char *wanted) {
    expect(strcmp(text, wanted) == 0, 1, wanted);
}

void text_trial(void) {
    expect_texts(ldp_ft_answer_text, 64, 28, "answers");
    expect_texts(ldp_ft_phase_text, 64, 5, "phases");
    expect_texts(ldp_ft_kind_text, 64, 10, "kinds");
    expect_texts(ldp_ft_code_text, 64, 10, "codes");
    expect_texts(ldp_ft_type_text, 0x0500, 11, "types");
    expect_text(ldp_ft_answer_text(36), "the peer ends the session");
    expect_text(ldp_ft_phase_text(2), "UpFT");
    expect_text(ldp_ft_kind_text(9), "No Label Resources");
    expect_text(ldp_ft_code_text(4), "asked back");
    expect_text(ldp_ft_type_text(0x0402), "Label Withdraw");
}
