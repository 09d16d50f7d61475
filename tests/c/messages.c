/* Calls the readers and writers of smblease.h where there is too little room, where the bytes have a fault, and with numbers
   that no call writes. Texts and answers are those of MS-SMB2 2.2.13.2 and 2.2.23 to 2.2.25. Status 1 where one is another. */
#include <smblease.h>
#include <stdio.h>
#include <string.h>

#define KEY {0, 1, 2, 3, 4, 5, 6, 7, 8, 9, 10, 11, 12, 13, 14, 15}
#define KEY_TEXT "\0\x01\x02\x03\x04\x05\x06\x07\x08\x09\x0a\x0b\x0c\x0d\x0e\x0f"
#define ZEROS_8 "\0\0\0\0\0\0\0\0"
#define BYTES(text) (const uint8_t *)(text)

/* RH and a durable open are asked for: Next 56 and 0, the names RqLs and DHnQ. */
static const char ask_text[] = "\x38\0\0\0\x10\0\x04\0\0\0\x18\0\x20\0\0\0RqLs\0\0\0\0" KEY_TEXT "\x03\0\0\0\0\0\0\0" ZEROS_8
                               "\0\0\0\0\x10\0\x04\0\0\0\x18\0\x10\0\0\0DHnQ\0\0\0\0" ZEROS_8 ZEROS_8;
static const struct smblease_create_ask asked = {KEY, 0, 3, 1, 1, 0, 0, {0}};

static const char notice_text[] = "\x2c\0\0\0\x01\0\0\0" KEY_TEXT "\x07\0\0\0\x03\0\0\0" ZEROS_8 "\0\0\0\0";
static const struct smblease_notification notice = {KEY, 7, 3, 1, {0}};

/* An acknowledgment and a response of the key with RH. */
static const char kept_text[] = "\x24\0\0\0\0\0\0\0" KEY_TEXT "\x03\0\0\0" ZEROS_8;
static const struct smblease_acknowledgment kept = {KEY, 3, {0}};

static int wrong_ones;

static void check(const char *what, int is_right) {
    if (!is_right) {
        wrong_ones++;
        printf("wrong: %s\n", what);
    }
}

static int is_fault(struct smblease_fault fault, uint32_t kind, uint64_t place) {
    return fault.kind == kind && fault.place == place && fault.reserved == 0;
}

static int is_all(const uint8_t *bytes, uint8_t value, size_t count) {
    while (count > 0 && bytes[count - 1] == value) count--;
    return count == 0;
}

static void check_asks(void) {
    uint8_t room[97];
    struct smblease_create_ask ask = asked, before;
    ask.file_id = 9;
    ask.durable = 0;
    before = ask;
    check("contexts cut short", is_fault(smblease_read_create_ask(BYTES(ask_text), 60, &ask), SMBLEASE_SHORT, 56));
    check("they leave the struct", memcmp(&ask, &before, sizeof ask) == 0);
    check("contexts", is_fault(smblease_read_create_ask(BYTES(ask_text), 96, &ask), SMBLEASE_NO_FAULT, 0));
    check("each field", memcmp(&ask, &asked, sizeof ask) == 0);
    memset(room, 7, sizeof room);
    check("too little room", smblease_write_create_ask(&asked, room, 95) == 96 && is_all(room, 7, sizeof room));
    check("too little room for a response", smblease_write_create_answer(&(struct smblease_create_answer){KEY, 1, 1, 1, 0, 0, {0}},
                                                                          room, 55) == 56 && is_all(room, 7, sizeof room));
    check("room enough", smblease_write_create_ask(&asked, room, sizeof room) == 96 && memcmp(room, ask_text, 96) == 0);
    check("what comes after it", room[96] == 7);
    ask.has_lease = 255;
    ask.durable = 2;
    ask.state = 0xf3;
    memset(room, 7, sizeof room);
    check("any number says yes", smblease_write_create_ask(&ask, room, 96) == 96 && memcmp(room, ask_text, 96) == 0);
}

static void check_notifications(void) {
    uint8_t room[45];
    struct smblease_notification read = notice, before;
    read.ack_required = 0;
    read.current_state = 1;
    before = read;
    check("a notification cut short", is_fault(smblease_read_notification(BYTES(notice_text), 43, &read), SMBLEASE_SHORT, 0));
    check("one of another size", is_fault(smblease_read_notification(BYTES(ask_text), 96, &read), SMBLEASE_WRONG_SIZE, 0));
    check("both leave the struct", memcmp(&read, &before, sizeof read) == 0);
    memset(room, 7, sizeof room);
    check("too little room for one", smblease_write_notification(&notice, room, 43) == 44 && is_all(room, 7, sizeof room));
    check("room enough for one", smblease_write_notification(&notice, room, 45) == 44 && memcmp(room, notice_text, 44) == 0);
    check("what comes after one", room[44] == 7);
}

static void check_acknowledgments(void) {
    uint8_t room[36];
    struct smblease_notification told = notice;
    struct smblease_acknowledgment due = kept;
    struct smblease_response response = {KEY, 0, {0}};
    told.ack_required = 0;
    due.state = 5;
    check("none is due", !smblease_acknowledgment_due(&told, &due) && due.state == 5);
    told.ack_required = 2;
    check("one is due", smblease_acknowledgment_due(&told, &due) && memcmp(&due, &kept, sizeof due) == 0);
    memset(room, 7, sizeof room);
    check("no room for it", smblease_write_acknowledgment(&due, NULL, 0) == 36);
    check("too little room for it", smblease_write_acknowledgment(&due, room, 35) == 36 && is_all(room, 7, sizeof room));
    check("it is written", smblease_write_acknowledgment(&due, room, 36) == 36 && memcmp(room, kept_text, 36) == 0);
    check("one cut short", is_fault(smblease_read_acknowledgment(room, 35, &due), SMBLEASE_SHORT, 0));
    check("a response", is_fault(smblease_read_response(room, 36, &response), SMBLEASE_NO_FAULT, 0) && response.state == 3);
    memset(room, 7, sizeof room);
    check("too little room for a response", smblease_write_response(&response, room, 35) == 36 && is_all(room, 7, sizeof room));
}

static void check_contexts(void) {
    struct smblease_context context = {9, 9, 9, 9, 9};
    check("a place past the text",
          is_fault(smblease_read_context(BYTES(ask_text), 96, UINT64_MAX, &context), SMBLEASE_SHORT, UINT64_MAX));
    check("it leaves the struct", context.name_place == 9 && context.next_place == 9);
    check("one past a fault", !smblease_find_context(BYTES(ask_text), 60, BYTES("DHnQ"), 4, &context) && context.next_place == 9);
    check("one before it", smblease_find_context(BYTES(ask_text), 96, BYTES("RqLs"), 4, &context) && context.data_place == 24
                               && context.next_place == 56);
}

static void check_appended(void) {
    static uint8_t name[65513], data[32];
    uint8_t room[160];
    memset(name, 1, sizeof name);
    memset(data, 9, sizeof data);
    memset(room, 0xee, sizeof room);
    check("to a text with a fault", smblease_append_context(room, sizeof room, 56, BYTES("QFid"), 4, data, 32) == 0);
    check("too long a name", smblease_append_context(room, sizeof room, 0, name, 65513, NULL, 0) == 0);
    check("the longest name", smblease_append_context(room, sizeof room, 0, name, 65512, NULL, 0) == 65528);
    check("nothing is written", is_all(room, 0xee, sizeof room));
    memcpy(room, ask_text, 96);
    check("to a request", smblease_append_context(room, sizeof room, 96, BYTES("QFid"), 4, data, 32) == 152);
    check("what was there", memcmp(room, ask_text, 56) == 0 && memcmp(room + 60, ask_text + 60, 36) == 0);
    check("Next of the last context", room[56] == 40 && room[57] == 0 && room[58] == 0 && room[59] == 0);
    check("the new one", memcmp(room + 96, "\0\0\0\0\x10\0\x04\0\0\0\x18\0\x20\0\0\0QFid\0\0\0\0", 24) == 0
                             && memcmp(room + 120, data, 32) == 0);
    check("what comes after the new one", is_all(room + 152, 0xee, 8));
}

static void check_faults(void) {
    char room[9];
    memset(room, 7, sizeof room);
    check("the name of a fault", smblease_fault_name(SMBLEASE_BAD_NEXT, room, sizeof room) == 8 && memcmp(room, "BadNext\0\7", 9) == 0);
    check("one that is too long", smblease_fault_name(SMBLEASE_WRONG_SIZE, room, sizeof room) == 10
                                      && memcmp(room, "BadNext\0\7", 9) == 0);
    check("no fault has no name", smblease_fault_name(SMBLEASE_NO_FAULT, room, sizeof room) == 0);
    check("nor has a number that is no kind", smblease_fault_name(8, room, sizeof room) == 0);
    check("no fault is success", smblease_fault_status(SMBLEASE_NO_FAULT) == SMBLEASE_STATUS_SUCCESS);
    check("a fault is none", smblease_fault_status(SMBLEASE_SHORT) == SMBLEASE_STATUS_INVALID_PARAMETER
                                 && smblease_fault_status(SMBLEASE_TWICE) == SMBLEASE_STATUS_INVALID_PARAMETER);
    check("no message", smblease_message_kind(NULL, 0) == SMBLEASE_OTHER_MESSAGE
                            && smblease_message_kind(BYTES(ask_text), 96) == SMBLEASE_OTHER_MESSAGE);
}

int main(void) {
    check_asks();
    check_notifications();
    check_acknowledgments();
    check_contexts();
    check_appended();
    check_faults();
    return wrong_ones != 0;
}
