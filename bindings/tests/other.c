/* Another library: it has the names of the calls and the version OTHER, and each call ends with a status that is none. */
#include <stdint.h>

uint32_t vtc_version(void) { return OTHER; }

#define CALL(name) uint32_t name(void) { return 99; }
#define CALLS(is_canonical, index, check, rewrite, settle, json, make, make_as_given) \
    CALL(is_canonical) CALL(index) CALL(check) CALL(rewrite) CALL(settle) CALL(json) CALL(make) CALL(make_as_given)
CALL(vtc_next)
CALLS(vtc_is_canonical, vtc_index, vtc_check, vtc_rewrite, vtc_settle, vtc_json, vtc_make, vtc_make_as_given)
CALLS(vtc_action_is_canonical, vtc_action_index, vtc_action_check, vtc_action_rewrite, vtc_action_settle, vtc_action_json, vtc_action_make,
      vtc_action_make_as_given)

#ifdef NEW_CALL
CALL(vtc_new)
#endif
