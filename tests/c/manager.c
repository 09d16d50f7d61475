/* A manager's handle: each field of each struct of smblease_manager.h has bytes that no other field has, each kind of decision
   comes once at least, and each call is tried where nothing is held. Prints what isn't as declared; its status is how often. */
#include <smblease_manager.h>

#include <stdio.h>
#include <string.h>

#define CLIENT UINT64_C(0x2726252423222120)
#define OTHER UINT64_C(0x3736353433323130)
#define TAG UINT64_C(0x4746454443424140)
#define LATER_TAG UINT64_C(0x5756555453525150)
#define FILE_NO UINT64_C(0x6766656463626160)
#define DENIED UINT32_C(0xC0000022)
#define CONFLICTS UINT32_C(0xC0000043)
#define TOO_LONG UINT32_C(0xC000000D)
#define KEY {0xe0, 0xe1, 0xe2, 0xe3, 0xe4, 0xe5, 0xe6, 0xe7, 0xe8, 0xe9, 0xea, 0xeb, 0xec, 0xed, 0xee, 0xef}
#define OTHER_KEY {0xf0, 0xf1, 0xf2, 0xf3, 0xf4, 0xf5, 0xf6, 0xf7, 0xf8, 0xf9, 0xfa, 0xfb, 0xfc, 0xfd, 0xfe, 0xff}

static const struct smblease_key key = {KEY}, other_key = {OTHER_KEY};
static struct smblease_manager manager;
static int wrong;

static void is(unsigned long long had, unsigned long long wanted, int line) {
    if (had != wanted) {
        printf("line %d: %llu in place of %llu\n", line, had, wanted);
        wrong++;
    }
}

#define IS(had, wanted) is((had), (wanted), __LINE__)
#define DONE(call) IS((call), SMBLEASE_DONE)

/* The call decided these, in this order, and nothing else. The structs have no padding. */
static void decides(const struct smblease_manager_decision *wanted, size_t count, int line) {
    struct smblease_manager_decision had;
    is(smblease_manager_decision_count(&manager), count, line);
    for (size_t k = 0; k < count; k++) {
        memset(&had, 0xa5, sizeof had);
        is(smblease_manager_decision_at(&manager, k, &had), SMBLEASE_DONE, line);
        is(memcmp(&had, &wanted[k], sizeof had) != 0, 0, line);
    }
    memset(&had, 0xa5, sizeof had);
    is(smblease_manager_decision_at(&manager, count, &had), SMBLEASE_NO_SUCH, line);
    is(had.client, UINT64_C(0xa5a5a5a5a5a5a5a5), line);
}

#define DECIDES(...)                                                                         \
    do {                                                                                     \
        const struct smblease_manager_decision wanted[] = {__VA_ARGS__};                     \
        decides(wanted, sizeof wanted / sizeof wanted[0], __LINE__);                         \
    } while (0)
#define NOTHING_DECIDED decides(NULL, 0, __LINE__)

/* ---- where nothing is held ---- */

static void calls_of_nothing(void) {
    struct smblease_create_ask ask = {.key = KEY};
    struct smblease_acknowledgment given = {.key = KEY};
    struct smblease_maybe_key none = {KEY, 0};
    IS(smblease_manager_join(&manager, CLIENT), SMBLEASE_NONE);
    IS(smblease_manager_cut(&manager, CLIENT), SMBLEASE_NONE);
    IS(smblease_manager_expire(&manager, CLIENT, &key), SMBLEASE_NONE);
    IS(smblease_manager_run_out(&manager, 1), SMBLEASE_NONE);
    IS(smblease_manager_scavenge(&manager, 1), SMBLEASE_NONE);
    IS(smblease_manager_create(&manager, CLIENT, TAG, FILE_NO, 3, 3, &ask), SMBLEASE_NONE);
    IS(smblease_manager_create(&manager, CLIENT, TAG, FILE_NO, 0, 3, &ask), SMBLEASE_NO_SUCH);
    IS(smblease_manager_create(&manager, CLIENT, TAG, FILE_NO, 3, 4, &ask), SMBLEASE_NO_SUCH);
    IS(smblease_manager_read(&manager, CLIENT, TAG, 1), SMBLEASE_NONE);
    IS(smblease_manager_write(&manager, CLIENT, TAG, 1, 1), SMBLEASE_NONE);
    IS(smblease_manager_close(&manager, CLIENT, TAG, 1), SMBLEASE_NONE);
    IS(smblease_manager_acknowledge(&manager, CLIENT, &given), SMBLEASE_NONE);
    IS(smblease_manager_acknowledge_malformed(&manager, CLIENT), SMBLEASE_NONE);
    IS(smblease_manager_withdraw(&manager, CLIENT, TAG, FILE_NO), SMBLEASE_NONE);
    IS(smblease_manager_leave(&manager, CLIENT, NULL, 0, NULL, 0), SMBLEASE_NONE);
    IS(smblease_manager_give_up(&manager, CLIENT, &none, FILE_NO, SMBLEASE_EXTENT_ALL), SMBLEASE_NONE);
    IS(smblease_manager_give_up(&manager, CLIENT, &none, FILE_NO, 0), SMBLEASE_NO_SUCH);
    IS(smblease_manager_change(&manager, CLIENT, TAG, &none, FILE_NO, SMBLEASE_EXTENT_ALL), SMBLEASE_NONE);
    IS(smblease_manager_change(&manager, CLIENT, TAG, &none, FILE_NO, 0), SMBLEASE_NO_SUCH);
    IS(smblease_manager_list_opens(&manager), SMBLEASE_NONE);
    IS(smblease_manager_list_leases(&manager), SMBLEASE_NONE);
    IS(smblease_manager_list_requests(&manager), SMBLEASE_NONE);
}

static void questions_of_nothing(void) {
    struct smblease_maybe_key maybe = {OTHER_KEY, 1};
    struct smblease_manager_decision decision = {.client = 9};
    struct smblease_held_lease lease = {.state = 9};
    struct smblease_listed_open listed = {.file_id = 9};
    struct smblease_listed_lease listed_lease = {.client = 9};
    struct smblease_listed_request listed_request = {.client = 9};
    struct smblease_change change = {.client = 9};
    uint64_t file_id = 9;
    IS(smblease_manager_decision_count(&manager), 0);
    IS(smblease_manager_decision_at(&manager, 0, &decision), SMBLEASE_NONE);
    IS(decision.client, 9);
    IS(smblease_manager_connected(&manager, CLIENT), 0);
    IS(smblease_manager_breaking(&manager, CLIENT, &key), 0);
    IS(smblease_manager_waiting(&manager, CLIENT, TAG, FILE_NO), 0);
    IS(smblease_manager_left_behind(&manager, 1), 0);
    IS(smblease_manager_has_open(&manager, 1), 0);
    IS(smblease_manager_may_read(&manager, CLIENT, 1), 0);
    IS(smblease_manager_may_write(&manager, CLIENT, 1), 0);
    IS(smblease_manager_given_up(&manager, CLIENT, &maybe, FILE_NO, SMBLEASE_EXTENT_ALL), 0);
    IS(smblease_manager_open_count(&manager), 0);
    IS(smblease_manager_allowed(&manager, CLIENT, &maybe, FILE_NO, 7), 0);
    IS(smblease_manager_kept(&manager, CLIENT, FILE_NO, &file_id), SMBLEASE_NONE);
    IS(file_id, 9);
    IS(smblease_manager_lease(&manager, CLIENT, &key, &lease), SMBLEASE_NONE);
    IS(lease.state, 9);
    IS(smblease_manager_listed_at(&manager, 0, &listed), SMBLEASE_NONE);
    IS(listed.file_id, 9);
    IS(smblease_manager_listed_lease_at(&manager, 0, &listed_lease), SMBLEASE_NONE);
    IS(listed_lease.client, 9);
    IS(smblease_manager_listed_request_at(&manager, 0, &listed_request), SMBLEASE_NONE);
    IS(listed_request.client, 9);
    IS(smblease_manager_change_at(&manager, 0, &change), SMBLEASE_NONE);
    IS(change.client, 9);
    smblease_manager_free(&manager);
    IS(manager.state != NULL, 0);
}

/* ---- new ones ---- */

static void new_ones(void) {
    struct smblease_create_ask ask = {0};
    IS(smblease_manager_new(&manager, 2, SMBLEASE_AS_FREE, 5), SMBLEASE_NO_SUCH);
    IS(smblease_manager_new(&manager, SMBLEASE_BY_KEY, 2, 5), SMBLEASE_NO_SUCH);
    IS(manager.state != NULL, 0);
    DONE(smblease_manager_new(&manager, SMBLEASE_BY_KEY, SMBLEASE_WHOLE, 5));
    NOTHING_DECIDED;
    DONE(smblease_manager_join(&manager, CLIENT));
    IS(smblease_manager_new(&manager, SMBLEASE_BY_KEY, 2, 5), SMBLEASE_NO_SUCH);
    IS(smblease_manager_connected(&manager, CLIENT), 1);
    IS(smblease_manager_connected(&manager, OTHER), 0);
    DONE(smblease_manager_create(&manager, CLIENT, TAG, 5, 1, 3, &ask));
    DECIDES({.client = CLIENT, .tag = TAG, .kind = SMBLEASE_DECISION_OPENED, .file_id = 1});
    DONE(smblease_manager_create(&manager, CLIENT, TAG, 6, 1, 3, &ask));
    DECIDES({.client = CLIENT, .tag = TAG, .kind = SMBLEASE_DECISION_REFUSED, .status = SMBLEASE_STATUS_OBJECT_NAME_NOT_FOUND});
    DONE(smblease_manager_new(&manager, SMBLEASE_BY_CLIENT, SMBLEASE_AS_FREE, UINT64_MAX));
    NOTHING_DECIDED;
    IS(smblease_manager_connected(&manager, CLIENT), 0);
    IS(smblease_manager_open_count(&manager), 0);
}

/* ---- what calls are given, and what they decide ---- */

/* A durable open with all three caches; what has no meaning for a create is passed over. */
static void opened_alone(void) {
    struct smblease_create_ask ask = {.key = KEY, .file_id = 7, .state = 0xf7, .has_lease = 2, .durable = 3};
    ask.has_other_lease = 1;
    DONE(smblease_manager_join(&manager, CLIENT));
    DONE(smblease_manager_join(&manager, OTHER));
    DONE(smblease_manager_create(&manager, CLIENT, TAG, FILE_NO, 3, 3, &ask));
    DECIDES({.client = CLIENT, .tag = TAG, .file_id = 1, .key = KEY, .kind = SMBLEASE_DECISION_OPENED, .state = 7, .has_lease = 1,
             .durable = 1});
    DONE(smblease_manager_read(&manager, CLIENT, LATER_TAG, 1));
    DECIDES({.client = CLIENT, .tag = LATER_TAG, .kind = SMBLEASE_DECISION_GOES_ON});
    DONE(smblease_manager_write(&manager, CLIENT, LATER_TAG, 1, 2));
    DECIDES({.client = CLIENT, .tag = LATER_TAG, .kind = SMBLEASE_DECISION_GOES_ON});
    DONE(smblease_manager_write(&manager, CLIENT, LATER_TAG, 1, 0));
    DECIDES({.client = CLIENT, .tag = LATER_TAG, .kind = SMBLEASE_DECISION_REFUSED, .status = TOO_LONG});
}

static void broken_and_acknowledged(void) {
    struct smblease_create_ask ask = {.key = OTHER_KEY, .state = 3, .has_lease = 1};
    struct smblease_acknowledgment given = {.key = KEY, .state = 0xf3};
    struct smblease_held_lease lease;
    const struct smblease_held_lease wanted = {7, 3, 1, {0}};
    DONE(smblease_manager_create(&manager, OTHER, LATER_TAG, FILE_NO, 1, 3, &ask));
    DECIDES({.client = CLIENT, .key = KEY, .kind = SMBLEASE_DECISION_BREAKS, .current_state = 7, .new_state = 3,
             .ack_required = 1, .number = 1},
            {.client = OTHER, .tag = LATER_TAG, .kind = SMBLEASE_DECISION_WAITS});
    IS(smblease_manager_breaking(&manager, CLIENT, &key), 1);
    IS(smblease_manager_breaking(&manager, OTHER, &key), 0);
    IS(smblease_manager_waiting(&manager, OTHER, LATER_TAG, FILE_NO), 1);
    IS(smblease_manager_waiting(&manager, OTHER, LATER_TAG, 1), 0);
    memset(&lease, 0xa5, sizeof lease);
    DONE(smblease_manager_lease(&manager, CLIENT, &key, &lease));
    IS(memcmp(&lease, &wanted, sizeof lease) != 0, 0);
    DONE(smblease_manager_acknowledge_malformed(&manager, CLIENT));
    DECIDES({.client = CLIENT, .kind = SMBLEASE_DECISION_NOT_ACKNOWLEDGED, .status = SMBLEASE_STATUS_INVALID_PARAMETER});
    DONE(smblease_manager_acknowledge(&manager, CLIENT, &given));
    DECIDES({.client = CLIENT, .key = KEY, .kind = SMBLEASE_DECISION_ACKNOWLEDGED, .state = 3},
            {.client = OTHER, .tag = LATER_TAG, .file_id = 2, .key = OTHER_KEY, .kind = SMBLEASE_DECISION_OPENED, .state = 3,
             .has_lease = 1});
}

/* A create that shares nothing waits for handles, is taken back, and comes again when there are none. */
static void withdrawn(void) {
    struct smblease_create_ask ask = {.key = OTHER_KEY, .state = 3, .has_lease = 1};
    struct smblease_acknowledgment given = {.key = KEY, .state = 1};
    DONE(smblease_manager_create(&manager, OTHER, LATER_TAG, FILE_NO, 1, 0, &ask));
    DECIDES({.client = CLIENT, .key = KEY, .kind = SMBLEASE_DECISION_BREAKS, .current_state = 3, .new_state = 1,
             .ack_required = 1, .number = 2},
            {.client = OTHER, .tag = LATER_TAG, .kind = SMBLEASE_DECISION_WAITS});
    DONE(smblease_manager_withdraw(&manager, OTHER, TAG, FILE_NO));
    NOTHING_DECIDED;
    DONE(smblease_manager_withdraw(&manager, OTHER, LATER_TAG, FILE_NO));
    DECIDES({.client = OTHER, .tag = LATER_TAG, .kind = SMBLEASE_DECISION_WITHDRAWN});
    DONE(smblease_manager_acknowledge(&manager, CLIENT, &given));
    DECIDES({.client = CLIENT, .key = KEY, .kind = SMBLEASE_DECISION_ACKNOWLEDGED, .state = 1});
    DONE(smblease_manager_create(&manager, OTHER, TAG, FILE_NO, 1, 0, &ask));
    DECIDES({.client = OTHER, .tag = TAG, .kind = SMBLEASE_DECISION_REFUSED, .status = CONFLICTS});
}

static void closed(void) {
    DONE(smblease_manager_close(&manager, CLIENT, TAG, 1));
    DECIDES({.client = CLIENT, .tag = TAG, .kind = SMBLEASE_DECISION_CLOSED});
    DONE(smblease_manager_close(&manager, OTHER, LATER_TAG, 2));
    DECIDES({.client = OTHER, .tag = LATER_TAG, .kind = SMBLEASE_DECISION_CLOSED});
    IS(smblease_manager_has_open(&manager, 1), 0);
    IS(smblease_manager_open_count(&manager), 0);
}

/* ---- opens that stay, and what is known of them ---- */

static void left_behind(void) {
    struct smblease_create_ask ask = {.key = KEY, .state = 7, .has_lease = 1, .durable = 1};
    struct smblease_create_ask again = {.key = KEY, .file_id = 3, .has_lease = 1, .has_reconnect = 9};
    uint64_t file_id = 0;
    DONE(smblease_manager_create(&manager, CLIENT, TAG, FILE_NO, 3, 1, &ask));
    IS(smblease_manager_kept(&manager, CLIENT, FILE_NO, &file_id), SMBLEASE_NO_SUCH);
    DONE(smblease_manager_cut(&manager, CLIENT));
    DECIDES({.file_id = 3, .kind = SMBLEASE_DECISION_LEFT_BEHIND});
    IS(smblease_manager_left_behind(&manager, 3), 1);
    IS(smblease_manager_left_behind(&manager, 1), 0);
    IS(smblease_manager_kept(&manager, CLIENT, FILE_NO, &file_id), SMBLEASE_DONE);
    IS(file_id, 3);
    DONE(smblease_manager_join(&manager, CLIENT));
    DONE(smblease_manager_create(&manager, CLIENT, TAG, FILE_NO, 1, 1, &again));
    DECIDES({.client = CLIENT, .tag = TAG, .file_id = 3, .key = KEY, .kind = SMBLEASE_DECISION_OPENED, .state = 7,
             .has_lease = 1});
    IS(smblease_manager_left_behind(&manager, 3), 0);
    IS(smblease_manager_has_open(&manager, 3), 1);
}

static void allowed(void) {
    struct smblease_maybe_key one = {KEY, 5}, none = {KEY, 0};
    IS(smblease_manager_allowed(&manager, CLIENT, &one, FILE_NO, 0xf7), 7);
    IS(smblease_manager_allowed(&manager, CLIENT, &none, FILE_NO, 7), 3);
    IS(smblease_manager_allowed(&manager, OTHER, &one, FILE_NO, 7), 3);
    IS(smblease_manager_allowed(&manager, OTHER, &one, 1, 5), 5);
}

static void listed(void) {
    struct smblease_create_ask ask = {0};
    struct smblease_listed_open had[2];
    const struct smblease_listed_open wanted[2] = {
        {.file_id = 3, .client = CLIENT, .file = FILE_NO, .key = KEY, .has_key = 1, .access = 3, .share = 1, .durable = 1,
         .connected = 1},
        {.file_id = 4, .client = OTHER, .file = 1, .access = 1, .share = 2, .connected = 1}};
    DONE(smblease_manager_create(&manager, OTHER, TAG, 1, 1, 2, &ask));
    IS(smblease_manager_listed_at(&manager, 0, had), SMBLEASE_NO_SUCH);
    DONE(smblease_manager_list_opens(&manager));
    DECIDES({.client = OTHER, .tag = TAG, .file_id = 4, .kind = SMBLEASE_DECISION_OPENED});
    IS(smblease_manager_open_count(&manager), 2);
    memset(had, 0xa5, sizeof had);
    DONE(smblease_manager_listed_at(&manager, 0, &had[0]));
    DONE(smblease_manager_listed_at(&manager, 1, &had[1]));
    IS(memcmp(had, wanted, sizeof had) != 0, 0);
    IS(smblease_manager_listed_at(&manager, 2, had), SMBLEASE_NO_SUCH);
    DONE(smblease_manager_join(&manager, OTHER));
    IS(smblease_manager_listed_at(&manager, 0, had), SMBLEASE_NO_SUCH);
}

static void ended(void) {
    struct smblease_create_ask ask = {.key = OTHER_KEY, .state = 1, .has_lease = 1};
    DONE(smblease_manager_create(&manager, OTHER, LATER_TAG, FILE_NO, 1, 3, &ask));
    IS(smblease_manager_decision_count(&manager), 2);
    DONE(smblease_manager_run_out(&manager, 2));
    NOTHING_DECIDED;
    DONE(smblease_manager_expire(&manager, OTHER, &key));
    NOTHING_DECIDED;
    DONE(smblease_manager_expire(&manager, CLIENT, &key));
    DECIDES({.file_id = 3, .kind = SMBLEASE_DECISION_ENDED},
            {.client = OTHER, .tag = LATER_TAG, .file_id = 5, .key = OTHER_KEY, .kind = SMBLEASE_DECISION_OPENED, .state = 1,
             .has_lease = 1});
    DONE(smblease_manager_write(&manager, OTHER, TAG, 5, 1));
    DECIDES({.client = OTHER, .tag = TAG, .kind = SMBLEASE_DECISION_REFUSED, .status = DENIED});
    DONE(smblease_manager_scavenge(&manager, 5));
    NOTHING_DECIDED;
    DONE(smblease_manager_cut(&manager, OTHER));
    DECIDES({.file_id = 4, .kind = SMBLEASE_DECISION_ENDED}, {.file_id = 5, .kind = SMBLEASE_DECISION_ENDED});
    IS(smblease_manager_lease(&manager, OTHER, &other_key, &(struct smblease_held_lease){0}), SMBLEASE_DONE);
}

static void scavenged(void) {
    struct smblease_create_ask ask = {.key = OTHER_KEY, .state = 3, .has_lease = 1, .durable = 1};
    DONE(smblease_manager_join(&manager, OTHER));
    DONE(smblease_manager_create(&manager, OTHER, TAG, FILE_NO, 1, 1, &ask));
    DONE(smblease_manager_cut(&manager, OTHER));
    DONE(smblease_manager_scavenge(&manager, 6));
    DECIDES({.file_id = 6, .kind = SMBLEASE_DECISION_ENDED});
}

/* The timer of the last break of the lease runs out; those of others decide nothing. */
static void ran_out(void) {
    struct smblease_create_ask ask = {.key = OTHER_KEY, .state = 7, .has_lease = 1}, none = {0};
    DONE(smblease_manager_join(&manager, OTHER));
    DONE(smblease_manager_create(&manager, OTHER, TAG, FILE_NO, 3, 3, &ask));
    DONE(smblease_manager_create(&manager, CLIENT, LATER_TAG, FILE_NO, 1, 3, &none));
    DECIDES({.client = OTHER, .key = OTHER_KEY, .kind = SMBLEASE_DECISION_BREAKS, .current_state = 7, .new_state = 3,
             .ack_required = 1, .number = 4},
            {.client = CLIENT, .tag = LATER_TAG, .kind = SMBLEASE_DECISION_WAITS});
    DONE(smblease_manager_run_out(&manager, 3));
    NOTHING_DECIDED;
    DONE(smblease_manager_run_out(&manager, 4));
    DECIDES({.file_id = 7, .kind = SMBLEASE_DECISION_ENDED},
            {.client = CLIENT, .tag = LATER_TAG, .file_id = 8, .kind = SMBLEASE_DECISION_OPENED});
    DONE(smblease_manager_run_out(&manager, 4));
    NOTHING_DECIDED;
}

/* ---- what is done without an open, and a part of a client that goes ---- */

static void gave_up(void) {
    struct smblease_create_ask ask = {.key = KEY, .state = 7, .has_lease = 1};
    struct smblease_acknowledgment given = {.key = KEY, .state = 0};
    struct smblease_maybe_key own = {KEY, 2}, none = {KEY, 0};
    DONE(smblease_manager_create(&manager, OTHER, TAG, 2, 3, 3, &ask));
    IS(smblease_manager_given_up(&manager, OTHER, &own, 2, SMBLEASE_EXTENT_HANDLES), 1);
    IS(smblease_manager_given_up(&manager, OTHER, &none, 2, SMBLEASE_EXTENT_HANDLES), 0);
    IS(smblease_manager_given_up(&manager, CLIENT, &own, 2, SMBLEASE_EXTENT_ALL), 0);
    IS(smblease_manager_given_up(&manager, CLIENT, &own, 3, SMBLEASE_EXTENT_ALL), 1);
    IS(smblease_manager_given_up(&manager, CLIENT, &own, 3, 3), 0);
    IS(smblease_manager_give_up(&manager, CLIENT, &none, 2, 3), SMBLEASE_NO_SUCH);
    DECIDES({.client = OTHER, .tag = TAG, .file_id = 9, .key = KEY, .kind = SMBLEASE_DECISION_OPENED, .state = 7,
             .has_lease = 1});
    DONE(smblease_manager_give_up(&manager, OTHER, &own, 2, SMBLEASE_EXTENT_ALL));
    NOTHING_DECIDED;
    DONE(smblease_manager_give_up(&manager, CLIENT, &own, 2, SMBLEASE_EXTENT_HANDLES));
    DECIDES({.client = OTHER, .key = KEY, .kind = SMBLEASE_DECISION_BREAKS, .current_state = 7, .new_state = 5,
             .ack_required = 1, .number = 5});
    DONE(smblease_manager_give_up(&manager, OTHER, &none, 2, SMBLEASE_EXTENT_ALL));
    NOTHING_DECIDED;
    DONE(smblease_manager_acknowledge(&manager, OTHER, &given));
    IS(smblease_manager_given_up(&manager, CLIENT, &none, 2, SMBLEASE_EXTENT_ALL), 1);
}

/* Open 9 caches nothing any longer, 10 gives up its writes, and stays. */
static void left(void) {
    struct smblease_create_ask ask = {.key = {1}, .state = 7, .has_lease = 1, .durable = 1}, none = {0};
    struct smblease_acknowledgment given = {.key = {1}, .state = 3};
    const uint64_t opens[] = {10, 9, 8}, tags[] = {LATER_TAG, TAG};
    DONE(smblease_manager_create(&manager, OTHER, TAG, 3, 3, 3, &ask));
    DONE(smblease_manager_create(&manager, CLIENT, LATER_TAG, 3, 1, 3, &none));
    DONE(smblease_manager_create(&manager, OTHER, LATER_TAG, 3, 3, 3, &none));
    IS(smblease_manager_may_read(&manager, OTHER, 9), 1);
    IS(smblease_manager_may_write(&manager, OTHER, 9), 1);
    IS(smblease_manager_may_read(&manager, CLIENT, 9), 0);
    IS(smblease_manager_may_read(&manager, CLIENT, 8), 1);
    IS(smblease_manager_may_write(&manager, CLIENT, 8), 0);
    IS(smblease_manager_waiting(&manager, OTHER, LATER_TAG, 3), 1);
    DONE(smblease_manager_leave(&manager, OTHER, NULL, 0, &tags[0], 1));
    NOTHING_DECIDED;
    IS(smblease_manager_waiting(&manager, OTHER, LATER_TAG, 3), 0);
    IS(smblease_manager_waiting(&manager, CLIENT, LATER_TAG, 3), 1);
    DONE(smblease_manager_acknowledge(&manager, OTHER, &given));
    DECIDES({.client = OTHER, .key = {1}, .kind = SMBLEASE_DECISION_ACKNOWLEDGED, .state = 3},
            {.client = CLIENT, .tag = LATER_TAG, .file_id = 11, .kind = SMBLEASE_DECISION_OPENED});
    DONE(smblease_manager_leave(&manager, OTHER, opens, 3, tags, 2));
    DECIDES({.file_id = 9, .kind = SMBLEASE_DECISION_ENDED}, {.file_id = 10, .kind = SMBLEASE_DECISION_LEFT_BEHIND});
    DONE(smblease_manager_leave(&manager, OTHER, opens, 3, NULL, 0));
    NOTHING_DECIDED;
    IS(smblease_manager_connected(&manager, OTHER), 1);
    IS(smblease_manager_has_open(&manager, 8), 1);
}

/* The change at the index is this one, and the last. */
static void change_is(size_t index, struct smblease_change wanted, int line) {
    struct smblease_change had;
    memset(&had, 0xa5, sizeof had);
    is(smblease_manager_change_at(&manager, index, &had), SMBLEASE_DONE, line);
    is(memcmp(&had, &wanted, sizeof had) != 0, 0, line);
    memset(&had, 0xa5, sizeof had);
    is(smblease_manager_change_at(&manager, index + 1, &had), SMBLEASE_NO_SUCH, line);
    is(had.client, UINT64_C(0xa5a5a5a5a5a5a5a5), line);
}

/* By a client's key, which gives up nothing: at once, and then for another client's lease. */
static void changed(void) {
    struct smblease_create_ask ask = {.key = KEY, .state = 3, .has_lease = 1};
    struct smblease_create_ask other = {.key = OTHER_KEY, .state = 3, .has_lease = 1};
    struct smblease_maybe_key own = {KEY, 2};
    DONE(smblease_manager_new(&manager, SMBLEASE_BY_KEY, SMBLEASE_WHOLE, UINT64_MAX));
    DONE(smblease_manager_join(&manager, CLIENT));
    DONE(smblease_manager_join(&manager, OTHER));
    DONE(smblease_manager_create(&manager, CLIENT, TAG, FILE_NO, 3, 3, &ask));
    DONE(smblease_manager_change(&manager, CLIENT, TAG, &own, FILE_NO, SMBLEASE_EXTENT_ALL));
    DECIDES({.client = CLIENT, .tag = TAG, .kind = SMBLEASE_DECISION_GOES_ON});
    IS(smblease_manager_change_at(&manager, 0, &(struct smblease_change){0}), SMBLEASE_NO_SUCH);
    DONE(smblease_manager_create(&manager, OTHER, LATER_TAG, FILE_NO, 3, 3, &other));
    IS(smblease_manager_change(&manager, CLIENT, TAG, &own, FILE_NO, 3), SMBLEASE_NO_SUCH);
    DECIDES({.client = OTHER, .tag = LATER_TAG, .file_id = 2, .key = OTHER_KEY, .kind = SMBLEASE_DECISION_OPENED, .state = 3,
             .has_lease = 1});
    DONE(smblease_manager_change(&manager, CLIENT, TAG, &own, FILE_NO, SMBLEASE_EXTENT_HANDLES));
    DECIDES({.client = OTHER, .key = OTHER_KEY, .kind = SMBLEASE_DECISION_BREAKS, .current_state = 3, .new_state = 1,
             .ack_required = 1, .number = 1},
            {.client = CLIENT, .tag = TAG, .kind = SMBLEASE_DECISION_WAITS});
    change_is(0, (struct smblease_change){.file = FILE_NO, .client = CLIENT, .tag = TAG, .key = KEY, .has_key = 1,
                                          .extent = SMBLEASE_EXTENT_HANDLES}, __LINE__);
}

/* By no key, of a client that never joined: both wait, and each goes on once the lease has no handles. */
static void changes_go_on(void) {
    struct smblease_acknowledgment given = {.key = KEY, .state = 1}, other_given = {.key = OTHER_KEY, .state = 1};
    struct smblease_maybe_key none = {KEY, 0};
    DONE(smblease_manager_change(&manager, 9, LATER_TAG, &none, FILE_NO, SMBLEASE_EXTENT_HANDLES));
    DECIDES({.client = CLIENT, .key = KEY, .kind = SMBLEASE_DECISION_BREAKS, .current_state = 3, .new_state = 1,
             .ack_required = 1, .number = 2},
            {.client = 9, .tag = LATER_TAG, .kind = SMBLEASE_DECISION_WAITS});
    change_is(1, (struct smblease_change){.file = FILE_NO, .client = 9, .tag = LATER_TAG, .extent = SMBLEASE_EXTENT_HANDLES},
              __LINE__);
    IS(smblease_manager_waiting(&manager, 9, LATER_TAG, FILE_NO), 1);
    IS(smblease_manager_waiting(&manager, 9, TAG, FILE_NO), 0);
    DONE(smblease_manager_acknowledge(&manager, OTHER, &other_given));
    DECIDES({.client = OTHER, .key = OTHER_KEY, .kind = SMBLEASE_DECISION_ACKNOWLEDGED, .state = 1},
            {.client = CLIENT, .tag = TAG, .kind = SMBLEASE_DECISION_GOES_ON});
    DONE(smblease_manager_withdraw(&manager, 9, TAG, FILE_NO));
    NOTHING_DECIDED;
    DONE(smblease_manager_acknowledge(&manager, CLIENT, &given));
    DECIDES({.client = CLIENT, .key = KEY, .kind = SMBLEASE_DECISION_ACKNOWLEDGED, .state = 1},
            {.client = 9, .tag = LATER_TAG, .kind = SMBLEASE_DECISION_GOES_ON});
    IS(smblease_manager_change_at(&manager, 0, &(struct smblease_change){0}), SMBLEASE_NO_SUCH);
}

/* Taken back, and gone with the client or the tag. */
static void changes_withdrawn(void) {
    struct smblease_create_ask ask = {.key = OTHER_KEY, .state = 7, .has_lease = 1};
    struct smblease_maybe_key none = {KEY, 0};
    const uint64_t tags[] = {TAG};
    DONE(smblease_manager_new(&manager, SMBLEASE_BY_KEY, SMBLEASE_WHOLE, UINT64_MAX));
    DONE(smblease_manager_join(&manager, OTHER));
    DONE(smblease_manager_create(&manager, OTHER, TAG, 1, 3, 3, &ask));
    DONE(smblease_manager_change(&manager, 9, TAG, &none, 1, SMBLEASE_EXTENT_ALL));
    DONE(smblease_manager_change(&manager, CLIENT, LATER_TAG, &none, 1, SMBLEASE_EXTENT_ALL));
    DONE(smblease_manager_change(&manager, CLIENT, 1, &none, 1, SMBLEASE_EXTENT_ALL));
    DONE(smblease_manager_leave(&manager, 9, NULL, 0, tags, 1));
    NOTHING_DECIDED;
    IS(smblease_manager_waiting(&manager, 9, TAG, 1), 0);
    DONE(smblease_manager_withdraw(&manager, CLIENT, LATER_TAG, 1));
    DECIDES({.client = CLIENT, .tag = LATER_TAG, .kind = SMBLEASE_DECISION_WITHDRAWN});
    change_is(0, (struct smblease_change){.file = 1, .client = CLIENT, .tag = 1, .extent = SMBLEASE_EXTENT_ALL}, __LINE__);
    DONE(smblease_manager_cut(&manager, CLIENT));
    NOTHING_DECIDED;
    IS(smblease_manager_change_at(&manager, 0, &(struct smblease_change){0}), SMBLEASE_NO_SUCH);
    DONE(smblease_manager_cut(&manager, OTHER));
    DECIDES({.file_id = 1, .kind = SMBLEASE_DECISION_ENDED});
}

/* A lease with two opens that is breaking, and one that isn't; a create that waits for it with all that a create has, one that
   has nothing, and a write that waits behind. Each list is there until the next call. */
static void leases_and_requests_listed(void) {
    struct smblease_create_ask ask = {.key = KEY, .state = 7, .has_lease = 1}, other = {.key = OTHER_KEY, .state = 1, .has_lease = 1};
    struct smblease_create_ask waiting = {.key = OTHER_KEY, .state = 5, .has_lease = 1, .durable = 1, .has_reconnect = 1, .file_id = TAG};
    struct smblease_create_ask nothing = {0};
    struct smblease_listed_lease leases[2];
    struct smblease_listed_request requests[2];
    const struct smblease_listed_lease wanted[2] = {
        {.client = CLIENT, .file = FILE_NO, .opens = 2, .key = KEY, .state = 7, .broken_to = 3, .breaking = 1},
        {.client = OTHER, .file = 1, .opens = 1, .key = OTHER_KEY, .state = 1}};
    const struct smblease_listed_request wanted_requests[2] = {
        {.file = FILE_NO, .client = OTHER, .tag = TAG, .kind = SMBLEASE_WAITING_CREATE, .access = 1, .share = 3},
        {.file = FILE_NO, .client = OTHER, .tag = LATER_TAG, .file_id = TAG, .key = OTHER_KEY, .state = 5,
         .kind = SMBLEASE_WAITING_CREATE, .access = 2, .share = 3, .has_lease = 1, .durable = 1, .has_reconnect = 1}};
    DONE(smblease_manager_new(&manager, SMBLEASE_BY_CLIENT, SMBLEASE_AS_FREE, UINT64_MAX));
    DONE(smblease_manager_join(&manager, CLIENT));
    DONE(smblease_manager_join(&manager, OTHER));
    DONE(smblease_manager_create(&manager, OTHER, TAG, 1, 1, 3, &other));
    DONE(smblease_manager_create(&manager, CLIENT, TAG, FILE_NO, 3, 3, &ask));
    DONE(smblease_manager_create(&manager, CLIENT, TAG, FILE_NO, 3, 3, &ask));
    DONE(smblease_manager_create(&manager, OTHER, TAG, FILE_NO, 1, 3, &nothing));
    DONE(smblease_manager_create(&manager, OTHER, LATER_TAG, FILE_NO, 2, 3, &waiting));
    DONE(smblease_manager_list_requests(&manager));
    DONE(smblease_manager_list_leases(&manager));
    DECIDES({.client = OTHER, .tag = LATER_TAG, .kind = SMBLEASE_DECISION_WAITS});
    memset(leases, 0xa5, sizeof leases);
    memset(requests, 0xa5, sizeof requests);
    for (size_t index = 0; index < 2; index++) {
        DONE(smblease_manager_listed_lease_at(&manager, index, &leases[index]));
        DONE(smblease_manager_listed_request_at(&manager, index, &requests[index]));
    }
    IS(memcmp(leases, wanted, sizeof leases) != 0, 0);
    IS(memcmp(requests, wanted_requests, sizeof requests) != 0, 0);
    IS(smblease_manager_listed_lease_at(&manager, 2, leases), SMBLEASE_NO_SUCH);
    IS(smblease_manager_listed_request_at(&manager, 2, requests), SMBLEASE_NO_SUCH);
    DONE(smblease_manager_join(&manager, OTHER));
    IS(smblease_manager_listed_lease_at(&manager, 0, leases), SMBLEASE_NO_SUCH);
    IS(smblease_manager_listed_request_at(&manager, 0, requests), SMBLEASE_NO_SUCH);
}

/* Reads, writes and closes that wait behind a create of their client. */
static void requests_by_opens_listed(void) {
    struct smblease_create_ask ask = {.key = KEY, .state = 7, .has_lease = 1}, other = {0};
    struct smblease_listed_request had, wanted = {.file = 5, .client = OTHER, .tag = 3, .file_id = 2};
    DONE(smblease_manager_new(&manager, SMBLEASE_BY_CLIENT, SMBLEASE_AS_FREE, 5));
    DONE(smblease_manager_join(&manager, CLIENT));
    DONE(smblease_manager_join(&manager, OTHER));
    DONE(smblease_manager_create(&manager, CLIENT, 1, 5, 3, 3, &ask));
    DONE(smblease_manager_create(&manager, OTHER, 1, 5, 3, 3, &other));
    DONE(smblease_manager_acknowledge(&manager, CLIENT, &(struct smblease_acknowledgment){.key = KEY, .state = 3}));
    DONE(smblease_manager_create(&manager, OTHER, 2, 5, 3, 0, &other));
    DONE(smblease_manager_read(&manager, OTHER, 3, 2));
    DONE(smblease_manager_write(&manager, OTHER, 3, 2, 1));
    DONE(smblease_manager_close(&manager, OTHER, 3, 2));
    DONE(smblease_manager_list_requests(&manager));
    for (uint32_t kind = SMBLEASE_WAITING_READ; kind <= SMBLEASE_WAITING_CLOSE; kind++) {
        wanted.kind = kind;
        memset(&had, 0xa5, sizeof had);
        DONE(smblease_manager_listed_request_at(&manager, kind - 1, &had));
        IS(memcmp(&had, &wanted, sizeof had) != 0, 0);
    }
}

int main(void) {
    calls_of_nothing();
    questions_of_nothing();
    new_ones();
    opened_alone();
    broken_and_acknowledged();
    withdrawn();
    closed();
    left_behind();
    allowed();
    listed();
    ended();
    scavenged();
    ran_out();
    gave_up();
    left();
    changed();
    changes_go_on();
    changes_withdrawn();
    leases_and_requests_listed();
    requests_by_opens_listed();
    smblease_manager_free(&manager);
    IS(manager.state != NULL, 0);
    return wrong;
}
