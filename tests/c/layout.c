/* Compiles as C99, C11 and C++17, and not at all where a struct of ldp_ft.h has another size or a field another place than the library gives it, or a
   name another number. Nothing of it runs. */
#include "ldp_ft.h"
#include "ldp_ft_text.h"

#define ASSERT_JOINED(condition, line) typedef char assertion_of_line_##line[(condition) ? 1 : -1]
#define ASSERT_AT(condition, line) ASSERT_JOINED(condition, line)
#define ASSERT(condition) ASSERT_AT(condition, __LINE__)

ASSERT(sizeof(struct ldp_ft_session) == 12);
ASSERT(offsetof(struct ldp_ft_session, value) == 4);
ASSERT(offsetof(struct ldp_ft_session, flags) == 8);
ASSERT(sizeof(struct ldp_ft_outcome) == 40);
ASSERT(offsetof(struct ldp_ft_outcome, session) == 8);
ASSERT(offsetof(struct ldp_ft_outcome, length) == 20);
ASSERT(offsetof(struct ldp_ft_outcome, block0) == 28);
ASSERT(offsetof(struct ldp_ft_outcome, further) == 32);
ASSERT(offsetof(struct ldp_ft_outcome, left_out) == 36);
ASSERT(sizeof(struct ldp_ft_pdu) == 8);
ASSERT(sizeof(struct ldp_ft_part) == 12);
ASSERT(offsetof(struct ldp_ft_part, end) == 8);
ASSERT(sizeof(struct ldp_ft_message) == 72);
ASSERT(offsetof(struct ldp_ft_message, has) == 16);
ASSERT(offsetof(struct ldp_ft_message, label) == 28);
ASSERT(offsetof(struct ldp_ft_message, ack) == 40);
ASSERT(offsetof(struct ldp_ft_message, max_pdu_length) == 56);
ASSERT(offsetof(struct ldp_ft_message, timeout) == 48);
ASSERT(offsetof(struct ldp_ft_message, status_id) == 64);
ASSERT(offsetof(struct ldp_ft_message, published) == 68);
ASSERT(sizeof(struct ldp_ft_summary) == 52);
ASSERT(offsetof(struct ldp_ft_summary, kept) == 8);
ASSERT(offsetof(struct ldp_ft_summary, labels) == 32);
ASSERT(offsetof(struct ldp_ft_summary, max_pdu_length) == 44);
ASSERT(offsetof(struct ldp_ft_summary, marks) == 48);
ASSERT(sizeof(struct ldp_ft_words) == 12);
ASSERT(sizeof(struct ldp_ft_request) == 8);
ASSERT(sizeof(struct ldp_ft_prefix) == 12);
ASSERT(offsetof(struct ldp_ft_prefix, length) == 4);
ASSERT(offsetof(struct ldp_ft_prefix, prefix) == 8);
ASSERT(sizeof(struct ldp_ft_distance_result) == 8);
ASSERT(sizeof(struct ldp_ft_next) == 8);
ASSERT(offsetof(struct ldp_ft_next, left_out) == 4);
ASSERT(sizeof(struct ldp_ft_extended) == 8);
ASSERT(sizeof(struct ldp_ft_converted) == 12);
ASSERT(offsetof(struct ldp_ft_converted, length) == 8);

ASSERT(LDP_FT_IMAGE_SIZE == LDP_FT_BLOCKS * LDP_FT_BLOCK_SIZE);
ASSERT(LDP_FT_EARLIER_IMAGE_SIZE == LDP_FT_REQUEST_BLOCK * LDP_FT_BLOCK_SIZE);
ASSERT(LDP_FT_UNINDEXED_IMAGE_SIZE == LDP_FT_INDEX_BLOCK * LDP_FT_BLOCK_SIZE);
ASSERT(LDP_FT_INDEX_BLOCK == LDP_FT_REQUEST_BLOCK + 1);
ASSERT(LDP_FT_REQUEST_BLOCK == LDP_FT_SLOTS + 1);
ASSERT(LDP_FT_SEND_ROOM == LDP_FT_MESSAGE_MAX + 16);
ASSERT(LDP_FT_WORD_CODE(17u + 1048576u * LDP_FT_CODE_REQUEST) == LDP_FT_CODE_REQUEST);
ASSERT(LDP_FT_WORD_LABEL(LDP_FT_LABEL_LAST + 1048576u * LDP_FT_CODE_GIVEN) == LDP_FT_LABEL_LAST);
ASSERT(4 * LDP_FT_LABEL_WORDS == 508 - 32);
ASSERT(LDP_FT_VERSION_MAJOR == 5);
