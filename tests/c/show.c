/* Prints what `leasecheck show KIND HEX` prints, by the calls of smblease.h: KIND is ask, reply, break, ack or
   response. What was read is written and read again, which has to give the same, and a fault has to leave the
   struct as it was; status 9 where one of these is not so. */
#include <smblease.h>
#include <stdio.h>
#include <stdlib.h>
#include <string.h>

static void wrong(const char *what) {
    fprintf(stderr, "wrong: %s\n", what);
    exit(9);
}

static int tell(struct smblease_fault fault) {
    char name[SMBLEASE_FAULT_NAME_MOST] = {0};
    if (smblease_fault_name(fault.kind, name, sizeof name) != strlen(name) + 1) wrong("the name of a fault");
    if (smblease_fault_status(fault.kind) != SMBLEASE_STATUS_INVALID_PARAMETER) wrong("the status of a fault");
    fprintf(stderr, "fault %u %s at %llu\n", (unsigned)fault.kind, name, (unsigned long long)fault.place);
    return 1;
}

static void print_digits(const uint8_t *bytes, size_t length) {
    for (size_t i = 0; i < length; i++) printf("%02x", bytes[i]);
}

static void print_key_and_state(const uint8_t *key, uint32_t state) {
    static const size_t ends[] = {0, 4, 6, 8, 10, 16};
    for (size_t part = 0; part < 5; part++) {
        if (part > 0) printf("-");
        print_digits(key + ends[part], ends[part + 1] - ends[part]);
    }
    printf(" %s%s%s%s", state == 0 ? "none" : "", state & SMBLEASE_READ_CACHING ? "R" : "",
           state & SMBLEASE_WRITE_CACHING ? "W" : "", state & SMBLEASE_HANDLE_CACHING ? "H" : "");
}

static void print_rest(size_t length, size_t size) {
    if (length > size) printf("rest %zu\n", length - size);
}

/* The lines of the contexts of a text that has no fault. */
static void print_contexts(const uint8_t *text, size_t length) {
    struct smblease_context context = {0, 0, 0, 0, 0};
    uint64_t place = 0;
    while (length > 0) {
        if (smblease_read_context(text, length, place, &context).kind != SMBLEASE_NO_FAULT) wrong("a context");
        printf("context ");
        if (context.name_length == 0) printf("-");
        print_digits(text + context.name_place, (size_t)context.name_length);
        printf(" %llu\n", (unsigned long long)context.data_length);
        if (context.next_place == 0) break;
        place = context.next_place;
    }
}

static int show_ask(const uint8_t *text, size_t length) {
    struct smblease_create_ask ask, again;
    memset(&ask, 0xa5, sizeof ask);
    memset(&again, 0xa5, sizeof again);
    struct smblease_fault fault = smblease_read_create_ask(text, length, &ask);
    if (fault.kind != SMBLEASE_NO_FAULT) {
        if (memcmp(&ask, &again, sizeof ask) != 0) wrong("written on a fault");
        return tell(fault);
    }
    print_contexts(text, length);
    if (ask.has_lease) {
        printf("lease ");
        print_key_and_state(ask.key, ask.state);
        puts("");
    }
    if (ask.durable) puts("durable");
    if (ask.has_reconnect) printf("reconnect %llu\n", (unsigned long long)ask.file_id);
    if (!ask.has_lease && !ask.durable && !ask.has_reconnect) puts("nothing");
    uint8_t room[SMBLEASE_CREATE_ASK_MOST] = {0};
    size_t needed = smblease_write_create_ask(&ask, NULL, 0);
    if (needed > sizeof room || smblease_write_create_ask(&ask, room, needed) != needed) wrong("the length");
    if (smblease_read_create_ask(room, needed, &again).kind != SMBLEASE_NO_FAULT) wrong("what was written");
    if (memcmp(ask.key, again.key, 16) != 0 || ask.file_id != again.file_id || ask.state != again.state
        || ask.has_lease != again.has_lease || ask.durable != again.durable || ask.has_reconnect != again.has_reconnect)
        wrong("the value");
    return 0;
}

static int show_reply(const uint8_t *text, size_t length) {
    struct smblease_create_answer answer, again;
    memset(&answer, 0xa5, sizeof answer);
    memset(&again, 0xa5, sizeof again);
    struct smblease_fault fault = smblease_read_create_answer(text, length, &answer);
    if (fault.kind != SMBLEASE_NO_FAULT) {
        if (memcmp(&answer, &again, sizeof answer) != 0) wrong("written on a fault");
        return tell(fault);
    }
    print_contexts(text, length);
    if (answer.has_lease) {
        printf("lease ");
        print_key_and_state(answer.key, answer.state);
        puts(answer.breaking ? " breaking" : "");
    }
    if (answer.durable) puts("durable");
    if (!answer.has_lease && !answer.durable) puts("nothing");
    uint8_t room[SMBLEASE_CREATE_ANSWER_MOST] = {0};
    size_t needed = smblease_write_create_answer(&answer, NULL, 0);
    if (needed > sizeof room || smblease_write_create_answer(&answer, room, needed) != needed) wrong("the length");
    if (smblease_read_create_answer(room, needed, &again).kind != SMBLEASE_NO_FAULT) wrong("what was written");
    if (memcmp(answer.key, again.key, 16) != 0 || answer.state != again.state || answer.has_lease != again.has_lease
        || answer.breaking != again.breaking || answer.durable != again.durable)
        wrong("the value");
    return 0;
}

static int show_break(const uint8_t *bytes, size_t length) {
    struct smblease_notification message, again;
    memset(&message, 0xa5, sizeof message);
    memset(&again, 0xa5, sizeof again);
    struct smblease_fault fault = smblease_read_notification(bytes, length, &message);
    if (fault.kind != SMBLEASE_NO_FAULT) {
        if (memcmp(&message, &again, sizeof message) != 0) wrong("written on a fault");
        return tell(fault);
    }
    printf("break ");
    print_key_and_state(message.key, message.current_state);
    printf(" to %s", message.new_state == 0 ? "none" : "");
    printf("%s%s%s", message.new_state & SMBLEASE_READ_CACHING ? "R" : "", message.new_state & SMBLEASE_WRITE_CACHING ? "W" : "",
           message.new_state & SMBLEASE_HANDLE_CACHING ? "H" : "");
    puts(message.ack_required ? " ack" : " no ack");
    print_rest(length, SMBLEASE_NOTIFICATION_SIZE);
    uint8_t room[SMBLEASE_NOTIFICATION_SIZE] = {0};
    if (smblease_write_notification(&message, room, sizeof room - 1) != sizeof room || room[0] != 0) wrong("too little room");
    if (smblease_write_notification(&message, room, sizeof room) != sizeof room) wrong("the length");
    if (smblease_read_notification(room, sizeof room, &again).kind != SMBLEASE_NO_FAULT) wrong("what was written");
    if (memcmp(message.key, again.key, 16) != 0 || message.current_state != again.current_state
        || message.new_state != again.new_state || message.ack_required != again.ack_required)
        wrong("the value");
    return 0;
}

static int show_acknowledgment(const uint8_t *bytes, size_t length) {
    struct smblease_acknowledgment message = {0}, again = {0};
    struct smblease_fault fault = smblease_read_acknowledgment(bytes, length, &message);
    if (fault.kind != SMBLEASE_NO_FAULT) return tell(fault);
    printf("ack ");
    print_key_and_state(message.key, message.state);
    puts("");
    print_rest(length, SMBLEASE_ACKNOWLEDGMENT_SIZE);
    uint8_t room[SMBLEASE_ACKNOWLEDGMENT_SIZE] = {0};
    if (smblease_write_acknowledgment(&message, room, sizeof room) != sizeof room) wrong("the length");
    if (smblease_read_acknowledgment(room, sizeof room, &again).kind != SMBLEASE_NO_FAULT) wrong("what was written");
    if (memcmp(message.key, again.key, 16) != 0 || message.state != again.state) wrong("the value");
    return 0;
}

static int show_response(const uint8_t *bytes, size_t length) {
    struct smblease_response message = {0}, again = {0};
    struct smblease_fault fault = smblease_read_response(bytes, length, &message);
    if (fault.kind != SMBLEASE_NO_FAULT) return tell(fault);
    printf("response ");
    print_key_and_state(message.key, message.state);
    puts("");
    print_rest(length, SMBLEASE_RESPONSE_SIZE);
    uint8_t room[SMBLEASE_RESPONSE_SIZE] = {0};
    if (smblease_write_response(&message, room, sizeof room) != sizeof room) wrong("the length");
    if (smblease_read_response(room, sizeof room, &again).kind != SMBLEASE_NO_FAULT) wrong("what was written");
    if (memcmp(message.key, again.key, 16) != 0 || message.state != again.state) wrong("the value");
    return 0;
}

int main(int argc, char **argv) {
    if (argc != 3) return fputs("usage: show KIND HEX\n", stderr), 2;
    /* Exactly as many bytes as there are, so that a read past them is seen. */
    size_t length = strlen(argv[2]) / 2;
    uint8_t *bytes = malloc(length > 0 ? length : 1);
    if (bytes == NULL) return 2;
    for (size_t i = 0; i < length; i++) {
        unsigned byte = 0;
        if (sscanf(argv[2] + 2 * i, "%2x", &byte) != 1) return free(bytes), 2;
        bytes[i] = (uint8_t)byte;
    }
    int status = 2;
    if (strcmp(argv[1], "ask") == 0) status = show_ask(length > 0 ? bytes : NULL, length);
    if (strcmp(argv[1], "reply") == 0) status = show_reply(length > 0 ? bytes : NULL, length);
    if (strcmp(argv[1], "break") == 0) status = show_break(bytes, length);
    if (strcmp(argv[1], "ack") == 0) status = show_acknowledgment(bytes, length);
    if (strcmp(argv[1], "response") == 0) status = show_response(bytes, length);
    free(bytes);
    return status;
}
