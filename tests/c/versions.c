/* Leases of version 2: each field of each struct of smblease_versions.h has bytes that no other field has, and each call is tried
   where nothing is held. Prints what isn't as declared; its status is how often. */
#include <smblease_versions.h>

#include <stdio.h>
#include <string.h>

#define TAG UINT64_C(0x4746454443424140)
#define FILE_NO 5
#define BOTH (SMBLEASE_READS | SMBLEASE_WRITES)
#define DUPLICATE UINT32_C(0xC000022A)
#define NOT_AVAILABLE UINT32_C(0xC0000467)
#define NOT_FOUND UINT32_C(0xC0000034)

static struct smblease_manager manager;
static struct smblease_versions versions;
static uint8_t contexts[SMBLEASE_VERSIONS_MESSAGE_MOST];
static int wrong;

static void is(unsigned long long had, unsigned long long wanted, int line) {
    if (had != wanted) {
        printf("line %d: %llu in place of %llu\n", line, had, wanted);
        wrong++;
    }
}

#define IS(had, wanted) is((had), (wanted), __LINE__)
#define DONE(call) IS((call), SMBLEASE_DONE)

/* One context more: its data are so many bytes from this one on, but where they are given. */
static size_t with(size_t length, const char *name, uint8_t first, size_t size, const uint8_t *front, size_t front_size) {
    uint8_t data[52];
    for (size_t at = 0; at < size; at++) data[at] = (uint8_t)(first + at);
    memcpy(data, front, front_size);
    return smblease_append_context(contexts, sizeof contexts, length, (const uint8_t *)name, 4, data, size);
}

/* RqLs of version 2 for RWH, without flags; and DH2Q, without them */
static size_t asks_both(void) {
    static const uint8_t state[4] = {7, 0, 0, 0};
    uint8_t lease[52] = {0}, durable[16] = {0};
    for (int at = 0; at < 16; at++) lease[at] = (uint8_t)(0xe0 + at);
    memcpy(lease + 16, state, sizeof state);
    lease[48] = 0xff;
    lease[49] = 0x01;
    return with(with(0, "RqLs", 0, sizeof lease, lease, sizeof lease), "DH2Q", 0x50, 32, durable, sizeof durable);
}

static void nothing_is_held(void) {
    struct smblease_versions_ask asked, as_before;
    struct smblease_versions_message sent, unsent;
    memset(&asked, 0xa5, sizeof asked);
    memset(&sent, 0xa5, sizeof sent);
    as_before = asked;
    unsent = sent;
    IS(smblease_versions_asked(&versions, 1, TAG, 0, NULL, 0, &asked), SMBLEASE_NONE);
    IS(smblease_versions_closing(&versions, 1, TAG, 1), SMBLEASE_NONE);
    IS(smblease_versions_forget(&versions, 1), SMBLEASE_NONE);
    IS(smblease_versions_leave(&versions, 1, NULL, 0), SMBLEASE_NONE);
    IS(smblease_versions_follow(&versions, &manager, 0, 0, &sent), SMBLEASE_NONE);
    DONE(smblease_versions_new(&versions));
    IS(smblease_versions_follow(&versions, &manager, 0, 0, &sent), SMBLEASE_NONE);
    DONE(smblease_manager_new(&manager, SMBLEASE_BY_KEY, SMBLEASE_WHOLE, UINT64_MAX));
    IS(smblease_versions_follow(&versions, &manager, 0, 0, &sent), SMBLEASE_NO_SUCH);
    IS(smblease_versions_asked(&versions, 1, TAG, 0, (const uint8_t *)"RqLs", 4, &asked), SMBLEASE_DAMAGED);
    IS(memcmp(&asked, &as_before, sizeof asked) != 0, 0);
    IS(memcmp(&sent, &unsent, sizeof sent) != 0, 0);
}

static void a_create(void) {
    struct smblease_versions_ask asked;
    struct smblease_versions_message sent;
    struct smblease_context found = {0};
    size_t length = asks_both();
    memset(&asked, 0xa5, sizeof asked);
    memset(&sent, 0xa5, sizeof sent);
    DONE(smblease_versions_asked(&versions, 1, TAG, 0, contexts, length, &asked));
    for (int at = 0; at < 16; at++) IS(asked.ask.key[at], 0xe0 + at);
    IS(asked.ask.state, 7);
    IS(asked.ask.has_lease, 1);
    IS(asked.ask.durable, 1);
    IS(asked.ask.file_id + asked.ask.has_reconnect + asked.ask.has_other_lease + asked.again + asked.status + asked.reserved, 0);
    DONE(smblease_versions_asked(&versions, 1, TAG + 1, 1, contexts, length, &asked));
    IS(asked.status, NOT_AVAILABLE);
    IS(asked.ask.has_lease + asked.again, 0);
    DONE(smblease_versions_asked(&versions, 1, TAG, 0, contexts, length, &asked));
    DONE(smblease_manager_create(&manager, 1, TAG, FILE_NO, BOTH, BOTH, &asked.ask));
    DONE(smblease_versions_follow(&versions, &manager, 0, UINT32_C(0x73727170), &sent));
    for (size_t at = sent.length; at < sizeof sent.bytes; at++) IS(sent.bytes[at], 0);
    IS(smblease_find_context(sent.bytes, sent.length, (const uint8_t *)"RqLs", 4, &found), 1);
    IS(found.data_length, 52);
    IS(sent.bytes[found.data_place + 48] | sent.bytes[found.data_place + 49] << 8, 0x0200);
    IS(smblease_find_context(sent.bytes, sent.length, (const uint8_t *)"DH2Q", 4, &found), 1);
    IS(memcmp(sent.bytes + found.data_place, "pqrs\0\0\0\0", 8) != 0, 0);
}

static void asked_again(void) {
    static const uint8_t other[36] = {1};
    struct smblease_versions_ask asked = {{{0}, 0, 0, 0, 0, 0, 0, {0}}, 0, 0, 0};
    size_t length = asks_both();
    DONE(smblease_versions_asked(&versions, 1, TAG, 0, contexts, length, &asked));
    IS(asked.status, DUPLICATE);
    DONE(smblease_versions_asked(&versions, 1, TAG, 1, contexts, length, &asked));
    IS(asked.again, 1);
    IS(asked.status, 0);
    DONE(smblease_versions_asked(&versions, 2, TAG, 0, contexts, with(0, "DH2C", 0, 36, other, 36), &asked));
    IS(asked.status, NOT_FOUND);
}

static void a_break_and_a_close(void) {
    struct smblease_versions_ask asked = {{{0}, 0, 0, 0, 0, 0, 0, {0}}, 0, 0, 0};
    struct smblease_versions_message sent = {{0}, 0};
    uint64_t tag = TAG + 2;
    DONE(smblease_versions_asked(&versions, 2, tag, 0, NULL, 0, &asked));
    DONE(smblease_manager_create(&manager, 2, tag, FILE_NO, BOTH, BOTH, &asked.ask));
    DONE(smblease_versions_follow(&versions, &manager, 0, 0, &sent));
    IS(sent.length, SMBLEASE_NOTIFICATION_SIZE);
    IS(sent.bytes[2] | sent.bytes[3] << 8, 0x0201);
    DONE(smblease_versions_follow(&versions, &manager, 1, 0, &sent));
    IS(sent.length, 0);
    DONE(smblease_versions_leave(&versions, 2, &tag, 1));
    DONE(smblease_versions_closing(&versions, 1, TAG + 3, 1));
    DONE(smblease_manager_close(&manager, 1, TAG + 3, 1));
    DONE(smblease_versions_follow(&versions, &manager, 0, 0, &sent));
    DONE(smblease_versions_asked(&versions, 1, TAG, 0, contexts, asks_both(), &asked));
    IS(asked.status + asked.again, 0);
    DONE(smblease_versions_forget(&versions, 1));
}

int main(void) {
    nothing_is_held();
    DONE(smblease_manager_join(&manager, 1));
    DONE(smblease_manager_join(&manager, 2));
    a_create();
    asked_again();
    a_break_and_a_close();
    smblease_versions_free(&versions);
    smblease_manager_free(&manager);
    smblease_versions_free(&versions);
    return wrong;
}
