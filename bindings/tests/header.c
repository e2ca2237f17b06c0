/* The header by itself: it is compiled alone, and its numbers and sizes are those of the library. */
#include <vtc.h>

#define SAME(a, b) _Static_assert((a) == (b), #a " is " #b)

SAME(sizeof(struct vtc_node), 24);
SAME(offsetof(struct vtc_node, offset), 0);
SAME(offsetof(struct vtc_node, len), 8);
SAME(offsetof(struct vtc_node, word), 16);
SAME(offsetof(struct vtc_node, table), 18);
SAME(offsetof(struct vtc_node, depth), 19);
SAME(sizeof(struct vtc_attr), 24);
SAME(offsetof(struct vtc_attr, word), 16);
SAME(sizeof(struct vtc_verdict), 16);
SAME(offsetof(struct vtc_verdict, fits), 8);
SAME(offsetof(struct vtc_verdict, settled), 9);
SAME(offsetof(struct vtc_verdict, canonical), 10);
SAME(sizeof(struct vtc_fault), 24);
SAME(offsetof(struct vtc_fault, second), 8);
SAME(offsetof(struct vtc_fault, offset), 16);
SAME(VTC_NO_MESSAGE, 16);
SAME(VTC_TABLE_LSE, 17);
SAME(sizeof(size_t), 8);

/* Each call has the type that is written here. */
typedef uint8_t (*canonical)(const uint8_t *, size_t);
typedef size_t (*index_)(const uint8_t *, size_t, struct vtc_node *, size_t);
typedef uint32_t (*check)(const uint8_t *, size_t, struct vtc_verdict *, struct vtc_fault *);
typedef uint32_t (*writer)(const uint8_t *, size_t, uint8_t *, size_t, size_t *);
typedef uint32_t (*settler)(const uint8_t *, size_t, uint8_t *, size_t, size_t *, size_t *);
typedef uint32_t (*maker)(const char *, size_t, uint8_t *, size_t, size_t *, char *, size_t, size_t *);
const canonical canonicals[] = {vtc_is_canonical, vtc_action_is_canonical};
const index_ indexes[] = {vtc_index, vtc_action_index};
const check checks[] = {vtc_check, vtc_action_check};
const writer writers[] = {vtc_rewrite, vtc_action_rewrite, vtc_json, vtc_action_json};
const settler settlers[] = {vtc_settle, vtc_action_settle};
const maker makers[] = {vtc_make, vtc_action_make, vtc_make_as_given, vtc_action_make_as_given};

int main(void) { return (vtc_version() & ~VTC_PLAIN_RUST) == VTC_VERSION && vtc_matches() ? 0 : 1; }
