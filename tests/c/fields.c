/* Gives each field of each struct bytes of its own through the C struct, writes them, and compares what was written with
   bytes that are laid out here by hand after MS-SMB2; then reads these, and compares each field. Status 1 where one is
   another. */
#include <smblease.h>
#include <stdio.h>
#include <string.h>

#define KEY "\x10\x11\x12\x13\x14\x15\x16\x17\x18\x19\x1a\x1b\x1c\x1d\x1e\x1f"
#define ZEROS_4 "\0\0\0\0"
#define ZEROS_8 ZEROS_4 ZEROS_4
/* Next, NameOffset, NameLength, Reserved, DataOffset, DataLength, the name and four bytes that fill up */
#define HEADER(next, length, name) next "\0\0\0\x10\0\x04\0\0\0\x18\0" length "\0\0\0" name ZEROS_4
#define LEASE(next, state, flags) HEADER(next, "\x20", "RqLs") KEY state "\0\0\0" flags "\0\0\0" ZEROS_8
#define FILE_ID "\x01\x02\x03\x04\x05\x06\x07\x08"

static int wrong_ones;

static void check(const char *what, int is_right) {
    if (!is_right) {
        wrong_ones++;
        printf("wrong: %s\n", what);
    }
}

static int is_read(struct smblease_fault fault) { return fault.kind == SMBLEASE_NO_FAULT; }

static int is_zero(const void *bytes, size_t count) {
    const uint8_t *at = bytes;
    while (count > 0 && at[count - 1] == 0) count--;
    return count == 0;
}

struct ask_case {
    const char *name;
    struct smblease_create_ask ask;
    const char *text;
    size_t length;
};

#define ASK_CASE(name, key, file_id, state, lease, durable, reconnect, text) \
    {name, {key, file_id, state, lease, durable, reconnect, 0, {0}}, text, sizeof text - 1}
#define KEY_BYTES {16, 17, 18, 19, 20, 21, 22, 23, 24, 25, 26, 27, 28, 29, 30, 31}

static const struct ask_case ask_cases[] = {
    ASK_CASE("a lease", KEY_BYTES, 0, 5, 1, 0, 0, LEASE("\0", "\x05", "\0")),
    ASK_CASE("a durable open", {0}, 0, 0, 0, 1, 0, HEADER("\0", "\x10", "DHnQ") ZEROS_8 ZEROS_8),
    ASK_CASE("a reconnect", {0}, UINT64_C(0x0807060504030201), 0, 0, 0, 1, HEADER("\0", "\x10", "DHnC") FILE_ID FILE_ID),
    ASK_CASE("all", KEY_BYTES, UINT64_C(0x0807060504030201), 3, 1, 1, 1,
             LEASE("\x38", "\x03", "\0") HEADER("\x28", "\x10", "DHnQ") ZEROS_8 ZEROS_8
                 HEADER("\0", "\x10", "DHnC") FILE_ID FILE_ID),
};

static void check_asks(void) {
    for (size_t i = 0; i < sizeof ask_cases / sizeof ask_cases[0]; i++) {
        const struct ask_case *one = &ask_cases[i];
        uint8_t room[SMBLEASE_CREATE_ASK_MOST] = {0};
        check(one->name, smblease_write_create_ask(&one->ask, room, sizeof room) == one->length);
        check(one->name, memcmp(room, one->text, one->length) == 0);
        struct smblease_create_ask ask;
        memset(&ask, 0xa5, sizeof ask);
        check(one->name, is_read(smblease_read_create_ask((const uint8_t *)one->text, one->length, &ask)));
        check(one->name, memcmp(&ask, &one->ask, sizeof ask) == 0);
    }
}

struct answer_case {
    const char *name;
    struct smblease_create_answer answer;
    const char *text;
    size_t length;
};

#define ANSWER_CASE(name, key, state, lease, breaking, durable, text) \
    {name, {key, state, lease, breaking, durable, 0, {0}}, text, sizeof text - 1}

static const struct answer_case answer_cases[] = {
    ANSWER_CASE("a lease granted", KEY_BYTES, 6, 1, 0, 0, LEASE("\0", "\x06", "\0")),
    ANSWER_CASE("a lease that breaks", KEY_BYTES, 7, 1, 1, 0, LEASE("\0", "\x07", "\x02")),
    ANSWER_CASE("an open that is durable", {0}, 0, 0, 0, 1, HEADER("\0", "\x08", "DHnQ") ZEROS_8),
    ANSWER_CASE("all granted", KEY_BYTES, 1, 1, 0, 1, LEASE("\x38", "\x01", "\0") HEADER("\0", "\x08", "DHnQ") ZEROS_8),
};

static void check_answers(void) {
    for (size_t i = 0; i < sizeof answer_cases / sizeof answer_cases[0]; i++) {
        const struct answer_case *one = &answer_cases[i];
        uint8_t room[SMBLEASE_CREATE_ANSWER_MOST] = {0};
        check(one->name, smblease_write_create_answer(&one->answer, room, sizeof room) == one->length);
        check(one->name, memcmp(room, one->text, one->length) == 0);
        struct smblease_create_answer answer;
        memset(&answer, 0xa5, sizeof answer);
        check(one->name, is_read(smblease_read_create_answer((const uint8_t *)one->text, one->length, &answer)));
        check(one->name, memcmp(&answer, &one->answer, sizeof answer) == 0);
    }
}

static void check_other_leases(void) {
    static const char other[] = HEADER("\0", "\x34", "RqLs") KEY "\x07\0\0\0" ZEROS_4 ZEROS_8 ZEROS_8 ZEROS_8 ZEROS_4;
    struct smblease_create_ask ask;
    struct smblease_create_answer answer;
    memset(&ask, 0xa5, sizeof ask);
    memset(&answer, 0xa5, sizeof answer);
    check("a lease of version 2", is_read(smblease_read_create_ask((const uint8_t *)other, sizeof other - 1, &ask)));
    check("only that", ask.has_other_lease == 1 && ask.has_lease == 0 && ask.durable == 0 && ask.has_reconnect == 0);
    check("one granted", is_read(smblease_read_create_answer((const uint8_t *)other, sizeof other - 1, &answer)));
    check("only that granted", answer.has_other_lease == 1 && answer.has_lease == 0 && answer.breaking == 0
                                  && answer.durable == 0);
    check("nothing of it", is_zero(&ask, offsetof(struct smblease_create_ask, has_other_lease))
                               && is_zero(ask.reserved, sizeof ask.reserved));
}

static void check_messages(void) {
    static const char notice[] = "\x2c\0\0\0\x01\0\0\0" KEY "\x07\0\0\0\x02\0\0\0" ZEROS_8 ZEROS_4;
    static const char kept[] = "\x24\0\0\0\0\0\0\0" KEY "\x03\0\0\0" ZEROS_8;
    struct smblease_notification notification = {KEY_BYTES, 7, 2, 1, {0}}, told;
    struct smblease_acknowledgment acknowledgment = {KEY_BYTES, 3, {0}}, given;
    struct smblease_response response = {KEY_BYTES, 3, {0}}, answered;
    uint8_t room[SMBLEASE_NOTIFICATION_SIZE] = {0};
    memset(&told, 0xa5, sizeof told);
    memset(&given, 0xa5, sizeof given);
    memset(&answered, 0xa5, sizeof answered);
    check("a notification", smblease_write_notification(&notification, room, sizeof room) == 44 && memcmp(room, notice, 44) == 0);
    check("one read", is_read(smblease_read_notification((const uint8_t *)notice, 44, &told))
                           && memcmp(&told, &notification, sizeof told) == 0);
    check("an acknowledgment", smblease_write_acknowledgment(&acknowledgment, room, sizeof room) == 36
                                   && memcmp(room, kept, 36) == 0);
    check("one read", is_read(smblease_read_acknowledgment((const uint8_t *)kept, 36, &given))
                           && memcmp(&given, &acknowledgment, sizeof given) == 0);
    check("a response", smblease_write_response(&response, room, sizeof room) == 36
                                   && memcmp(room, kept, 36) == 0);
    check("one read", is_read(smblease_read_response((const uint8_t *)kept, 36, &answered))
                           && memcmp(&answered, &response, sizeof answered) == 0);
    check("kinds", smblease_message_kind((const uint8_t *)notice, 44) == SMBLEASE_NOTIFICATION
                       && smblease_message_kind((const uint8_t *)kept, 36) == SMBLEASE_ACKNOWLEDGMENT_OR_RESPONSE
                       && smblease_message_kind((const uint8_t *)"\x18\0" ZEROS_8 ZEROS_8 ZEROS_8, 24)
                              == SMBLEASE_OPLOCK_BREAK
                       && smblease_message_kind((const uint8_t *)notice, 43) == SMBLEASE_OTHER_MESSAGE);
}

static void check_contexts(void) {
    const struct ask_case *all = &ask_cases[3];
    struct smblease_context context = {9, 9, 9, 9, 9};
    const uint8_t *text = (const uint8_t *)all->text;
    struct smblease_fault fault = smblease_read_context(text, all->length, 56, &context);
    check("no fault", fault.kind == 0 && fault.place == 0 && fault.reserved == 0);
    check("its places", context.name_place == 72 && context.name_length == 4 && context.data_place == 80
                            && context.data_length == 16 && context.next_place == 96);
    fault = smblease_read_context(text, 100, 96, &context);
    check("a fault", fault.kind == SMBLEASE_SHORT && fault.place == 96 && context.next_place == 96);
    check("one found", smblease_find_context(text, all->length, (const uint8_t *)"DHnC", 4, &context) && context.name_place == 112
                           && context.data_place == 120 && context.next_place == 0);
    check("none found", !smblease_find_context(text, all->length, (const uint8_t *)"QFid", 4, &context)
                            && context.name_place == 112);
    check("none in no text", !smblease_find_context(NULL, 0, (const uint8_t *)"QFid", 4, &context));
}

int main(void) {
    struct smblease_version_numbers version = smblease_version();
    check("the version", version.major == SMBLEASE_VERSION_MAJOR
                             && version.minor == SMBLEASE_VERSION_MINOR && version.patch == SMBLEASE_VERSION_PATCH);
    check_asks();
    check_answers();
    check_other_leases();
    check_messages();
    check_contexts();
    return wrong_ones != 0;
}
