/* A client's leases of version 2: what is sent and taken has each field where it belongs, and each call is tried where nothing is
   held. Prints what isn't as declared; its status is how often. */
#include <smblease_client_versions.h>

#include <stdio.h>
#include <string.h>

#define FILE_ID UINT64_C(0x4746454443424140)
#define EPOCH_AT 48

static struct smblease_client_versions versions;
static struct smblease_guid guid;
static struct smblease_maybe_key parent, no_parent;
static uint8_t contexts[SMBLEASE_VERSIONS_MESSAGE_MOST];
static int wrong;

static void is(unsigned long long had, unsigned long long wanted, int line) {
    if (had != wanted) {
        printf("line %d: %llu in place of %llu\n", line, had, wanted);
        wrong++;
    }
}

#define IS(had, wanted) is((had), (wanted), __LINE__)
#define DONE(call) IS((call), SMBLEASE_DONE)

static size_t with(size_t length, const char *name, const uint8_t *data, size_t size) {
    return smblease_append_context(contexts, sizeof contexts, length, (const uint8_t *)name, 4, data, size);
}

/* The data of a context; NULL where it isn't there, or has another size. */
static const uint8_t *data_of(const struct smblease_versions_message *sent, const char *name, size_t size) {
    struct smblease_context found;
    if (!smblease_find_context(sent->bytes, sent->length, (const uint8_t *)name, 4, &found) || found.data_length != size) {
        printf("no %s of %zu\n", name, size);
        wrong++;
        return sent->bytes;
    }
    return sent->bytes + found.data_place;
}

static void nothing_is_held(void) {
    struct smblease_break_message notice = {{44}};
    struct smblease_versions_message sent, unsent;
    memset(&sent, 0xa5, sizeof sent);
    unsent = sent;
    IS(smblease_client_versions_ask(&versions, &guid, &parent, NULL, 0, &sent), SMBLEASE_NONE);
    IS(smblease_client_versions_answered(&versions, 0, FILE_ID, &guid, NULL, 0, &sent), SMBLEASE_NONE);
    IS(smblease_client_versions_noticed(&versions, 0, &notice, &sent), SMBLEASE_NONE);
    IS(smblease_client_versions_closed(&versions, FILE_ID), SMBLEASE_NONE);
    smblease_client_versions_free(&versions);
    IS(memcmp(&sent, &unsent, sizeof sent) != 0, 0);
    IS(versions.state != NULL, 0);
}

/* RqLs of version 1 for RWH, and DHnQ */
static size_t asks(uint8_t *lease) {
    static const uint8_t durable[16];
    memset(lease, 0, 32);
    for (int at = 0; at < 16; at++) lease[at] = (uint8_t)(0xe0 + at);
    lease[16] = 7;
    return with(with(0, "RqLs", lease, 32), "DHnQ", durable, sizeof durable);
}

static void asked_in_version_2(uint16_t epoch) {
    uint8_t lease[32];
    struct smblease_versions_message sent = {{0}, 0};
    size_t length = asks(lease);
    DONE(smblease_client_versions_ask(&versions, &guid, &parent, contexts, length, &sent));
    const uint8_t *asked = data_of(&sent, "RqLs", 52);
    IS(memcmp(asked, lease, 20) != 0, 0);
    IS(asked[20], 4);
    IS(memcmp(asked + 32, parent.bytes, 16) != 0, 0);
    IS((unsigned)(asked[EPOCH_AT] | asked[EPOCH_AT + 1] << 8), epoch);
    IS(memcmp(data_of(&sent, "DH2Q", 32) + 16, guid.bytes, 16) != 0, 0);
    DONE(smblease_client_versions_ask(&versions, &guid, &no_parent, contexts, length, &sent));
    IS(data_of(&sent, "RqLs", 52)[20], 0);
}

/* An answer of version 2 with this epoch, and DH2Q. */
static void answered(uint8_t in_order, uint16_t epoch, unsigned wanted) {
    static const uint8_t durable[8];
    uint8_t lease[52] = {0};
    struct smblease_versions_message taken = {{0}, 0};
    struct smblease_create_answer answer;
    asks(lease);
    lease[EPOCH_AT] = (uint8_t)epoch;
    lease[EPOCH_AT + 1] = (uint8_t)(epoch >> 8);
    size_t length = with(with(0, "RqLs", lease, sizeof lease), "DH2Q", durable, sizeof durable);
    DONE(smblease_client_versions_answered(&versions, in_order, FILE_ID, &guid, contexts, length, &taken));
    IS(smblease_read_create_answer(taken.bytes, taken.length, &answer).kind, SMBLEASE_NO_FAULT);
    IS(answer.state, wanted);
    IS(answer.durable, 1);
    IS(answer.has_other_lease, 0);
}

/* The notification of a break to RH with this epoch. */
static void noticed(uint8_t in_order, uint16_t epoch, uint32_t wanted) {
    struct smblease_notification notice = {.current_state = 7, .new_state = 3, .ack_required = 1};
    struct smblease_break_message message;
    struct smblease_versions_message taken = {{0}, 0};
    for (int at = 0; at < 16; at++) notice.key[at] = (uint8_t)(0xe0 + at);
    IS(smblease_write_notification(&notice, message.bytes, sizeof message.bytes), sizeof message.bytes);
    struct smblease_break_message plain = message;
    message.bytes[2] = (uint8_t)epoch;
    message.bytes[3] = (uint8_t)(epoch >> 8);
    DONE(smblease_client_versions_noticed(&versions, in_order, &message, &taken));
    IS(taken.length, wanted);
    IS(memcmp(taken.bytes, plain.bytes, wanted) != 0, 0);
}

static void connected_again(const char *name, size_t size) {
    uint8_t again[16] = {0x40, 0x41, 0x42, 0x43, 0x44, 0x45, 0x46, 0x47, 0x40, 0x41, 0x42, 0x43, 0x44, 0x45, 0x46, 0x47};
    struct smblease_versions_message sent = {{0}, 0};
    size_t length = with(0, "DHnC", again, sizeof again);
    DONE(smblease_client_versions_ask(&versions, &guid, &no_parent, contexts, length, &sent));
    const uint8_t *data = data_of(&sent, name, size);
    IS(memcmp(data, again, 16) != 0, 0);
    IS(size == 36 && memcmp(data + 16, guid.bytes, 16) != 0, 0);
}

static void what_cannot_be_read(void) {
    struct smblease_break_message notice = {{43}};
    struct smblease_versions_message sent = {{0}, 0};
    IS(smblease_client_versions_ask(&versions, &guid, &parent, contexts, 5, &sent), SMBLEASE_DAMAGED);
    IS(smblease_client_versions_answered(&versions, 0, FILE_ID, &guid, contexts, 5, &sent), SMBLEASE_DAMAGED);
    IS(smblease_client_versions_noticed(&versions, 0, &notice, &sent), SMBLEASE_DAMAGED);
    IS(sent.length, 0);
}

int main(void) {
    for (int at = 0; at < 16; at++) guid.bytes[at] = (uint8_t)(0x50 + at), parent.bytes[at] = (uint8_t)(0x90 + at);
    parent.has_key = 1;
    nothing_is_held();
    DONE(smblease_client_versions_new(&versions));
    asked_in_version_2(0);
    answered(0, 0x0105, 7);
    asked_in_version_2(0x0105);
    noticed(0, 0x0106, 44);
    answered(0, 0x0105, 3);
    noticed(0, 0x0104, 0);
    noticed(1, 0x0104, 44);
    asked_in_version_2(0x0104);
    answered(1, 0x0102, 7);
    connected_again("DH2C", 36);
    what_cannot_be_read();
    DONE(smblease_client_versions_closed(&versions, FILE_ID));
    connected_again("DHnC", 16);
    smblease_client_versions_free(&versions);
    nothing_is_held();
    return wrong;
}
