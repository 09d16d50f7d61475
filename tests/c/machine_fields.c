/* Gives each field of each struct of smblease_machines.h bytes that no other field has, by calls of a client and of a server.
   Of a struct that calls write, each field is compared; of one that calls read, a change of one field, or of one byte, has to
   change what comes out where the rules say so, and nothing elsewhere. Status 1 where one is another. */
#include <smblease.h>
#include <smblease_machines.h>
#include <stdio.h>
#include <string.h>

enum { FILES = 0x1f, FILE_NO = 0x11, OTHER_FILE = 0x12, CLIENT = 0x22, OTHER_CLIENT = 0x33, WRITE = 0x0605, OFFSET = 0x0c0b0a,
       ROOM = 200 };
#define FILE_ID UINT64_C(0x4746454443424140)
#define NUMBER UINT64_C(0x5756555453525150)
#define DENIED UINT32_C(0xC0000022)
#define FILE_CLOSED UINT32_C(0xC0000128)
#define BYTES "thirteen more"

#define TWELVE 0xe0, 0xe1, 0xe2, 0xe3, 0xe4, 0xe5, 0xe6, 0xe7, 0xe8, 0xe9, 0xea, 0xeb

static const struct smblease_guid guid = {{TWELVE, 0xec, 0xed, 0xee, 0xef}};
static const uint8_t key[16] = {TWELVE, FILE_NO, 0, 0, 0};
static const uint8_t other_key[16] = {0xf0, 0xf1, 0xf2, 0xf3};
static int wrong_ones;

static void check(const char *what, int is_right) {
    if (!is_right) {
        wrong_ones++;
        printf("wrong: %s\n", what);
    }
}

static void must(const char *call, uint32_t came) { check(call, came == SMBLEASE_DONE); }

#define MUST(call) must(#call, (call))

static const uint8_t *bytes(const char *text) { return (const uint8_t *)text; }

/* ---- what calls write, field by field ---- */

/* Whether the room has these bytes and nothing after them. */
static int has(const uint8_t *room, uint64_t length, const void *wanted) {
    size_t k = length;
    while (k < ROOM && room[k] == 0xa5) k++;
    return length < ROOM && k == ROOM && (length == 0 || memcmp(room, wanted, length) == 0);
}

static void answers(const char *what, struct smblease_client *client, const struct smblease_answer *wanted, const void *text) {
    struct smblease_answer had;
    uint8_t room[ROOM];
    memset(&had, 0xa5, sizeof had);
    memset(room, 0xa5, sizeof room);
    MUST(smblease_client_answer(client, &had, room, ROOM));
    check(what, had.length == wanted->length && had.kind == wanted->kind && had.refusal == wanted->refusal
                    && had.status == wanted->status && had.cached == wanted->cached && has(room, wanted->length, text));
}

static void sends(const char *what, struct smblease_client *client, size_t index, const struct smblease_client_request *wanted,
                  const void *text) {
    struct smblease_client_request had;
    uint8_t room[ROOM];
    memset(&had, 0xa5, sizeof had);
    memset(room, 0xa5, sizeof room);
    check(what, smblease_client_request_count(client) == index + 1);
    MUST(smblease_client_request_at(client, index, &had, room, ROOM));
    check(what, had.file_id == wanted->file_id && had.number == wanted->number && had.length == wanted->length
                    && had.kind == wanted->kind && had.offset == wanted->offset && had.file == wanted->file
                    && had.access == wanted->access && had.share == wanted->share && has(room, wanted->length, text));
}

static void notes(const char *what, struct smblease_client *client, size_t index, const struct smblease_note *wanted,
                  const void *text) {
    struct smblease_note had;
    uint8_t room[ROOM];
    memset(&had, 0xa5, sizeof had);
    memset(room, 0xa5, sizeof room);
    check(what, smblease_client_note_count(client) == index + 1);
    MUST(smblease_client_note_at(client, index, &had, room, ROOM));
    check(what, had.number == wanted->number && had.length == wanted->length && had.kind == wanted->kind
                    && had.outcome == wanted->outcome && had.offset == wanted->offset && had.state == wanted->state
                    && had.file == wanted->file && had.buffered == wanted->buffered && has(room, wanted->length, text));
}

static void gives_out(const char *what, struct smblease_server *server, size_t index, const struct smblease_server_out *wanted,
                      const void *text) {
    struct smblease_server_out had;
    uint8_t room[ROOM];
    memset(&had, 0xa5, sizeof had);
    memset(room, 0xa5, sizeof room);
    check(what, smblease_server_out_count(server) > index);
    MUST(smblease_server_out_at(server, index, &had, room, ROOM));
    check(what, had.file_id == wanted->file_id && had.number == wanted->number && had.length == wanted->length
                    && had.kind == wanted->kind && had.status == wanted->status && had.offset == wanted->offset
                    && had.client == wanted->client && had.file == wanted->file && has(room, wanted->length, text));
}

#define ANSWERS(client, text, ...) answers(#__VA_ARGS__, client, &(struct smblease_answer){__VA_ARGS__}, text)
#define SENDS(client, index, text, ...) sends(#__VA_ARGS__, client, index, &(struct smblease_client_request){__VA_ARGS__}, text)
#define NOTES(client, index, text, ...) notes(#__VA_ARGS__, client, index, &(struct smblease_note){__VA_ARGS__}, text)
#define GIVES_OUT(server, index, text, ...) \
    gives_out(#__VA_ARGS__, server, index, &(struct smblease_server_out){__VA_ARGS__}, text)

/* ---- messages, by the calls of smblease.h ---- */

static size_t asked(uint8_t *room, const uint8_t *lease_key, uint32_t state, uint8_t durable) {
    struct smblease_create_ask ask = {.state = state, .has_lease = 1, .durable = durable};
    memcpy(ask.key, lease_key, sizeof ask.key);
    return smblease_write_create_ask(&ask, room, ROOM);
}

static size_t granted(uint8_t *room, uint32_t state, uint8_t durable) {
    struct smblease_create_answer answer = {.state = state, .has_lease = 1, .durable = durable};
    memcpy(answer.key, key, sizeof answer.key);
    return smblease_write_create_answer(&answer, room, ROOM);
}

static struct smblease_break_message broken(uint32_t from, uint32_t to) {
    struct smblease_notification notification = {.current_state = from, .new_state = to, .ack_required = 1};
    struct smblease_break_message message = {{0}};
    memcpy(notification.key, key, sizeof notification.key);
    check("a break", smblease_write_notification(&notification, message.bytes, sizeof message.bytes) == 44);
    return message;
}

static struct smblease_ack_message acknowledged(uint32_t state) {
    struct smblease_acknowledgment acknowledgment = {.state = state};
    struct smblease_ack_message message = {{0}};
    memcpy(acknowledgment.key, key, sizeof acknowledgment.key);
    check("an acknowledgment", smblease_write_acknowledgment(&acknowledgment, message.bytes, sizeof message.bytes) == 36);
    return message;
}

/* ---- the client ---- */

static const struct smblease_open_terms terms = {.want = 7, .file = FILE_NO, .access = 3, .share = 2, .durable = 1};

/* A client that is connected, and opens the file. */
static void opening(struct smblease_client *client, const struct smblease_guid *whose, const struct smblease_open_terms *how) {
    MUST(smblease_client_new(client, whose, FILES));
    MUST(smblease_client_connect(client));
    MUST(smblease_client_open(client, how));
}

/* A client that has the file open, with this state of its lease. */
static void opened(struct smblease_client *client, uint32_t state) {
    uint8_t room[ROOM] = {0};
    size_t length = granted(room, state, 1);
    opening(client, &guid, &terms);
    MUST(smblease_client_take_created(client, FILE_NO, FILE_ID, room, length));
}

static void check_open(void) {
    struct smblease_client client = {0};
    uint8_t room[ROOM] = {0};
    opening(&client, &guid, &terms);
    ANSWERS(&client, NULL, .kind = SMBLEASE_ANSWER_WAITING);
    SENDS(&client, 0, room, .length = asked(room, key, 7, 1), .kind = SMBLEASE_CREATE, .file = FILE_NO, .access = 3, .share = 2);
    MUST(smblease_client_take_create_failed(&client, FILE_NO, DENIED));
    ANSWERS(&client, NULL, .kind = SMBLEASE_ANSWER_FAILED, .status = DENIED);
    opened(&client, 7);
    ANSWERS(&client, NULL, .kind = SMBLEASE_ANSWER_DONE);
    NOTES(&client, 0, NULL, .kind = SMBLEASE_BELIEVES, .state = 7, .file = FILE_NO);
    check("a belief", smblease_client_belief(&client, FILE_NO) == 7);
    smblease_client_free(&client);
}

/* Without W a write is sent. The one that is looked at has a number of two bytes. */
static void check_writes(void) {
    struct smblease_client client = {0};
    opened(&client, 3);
    for (uint64_t number = 1; number < WRITE; number++) {
        MUST(smblease_client_write(&client, FILE_NO, 0, bytes("x"), 1));
        MUST(smblease_client_take_write_done(&client, FILE_ID, number));
    }
    NOTES(&client, 0, NULL, .number = WRITE - 1, .kind = SMBLEASE_SETTLED, .outcome = SMBLEASE_WRITE_DONE);
    MUST(smblease_client_write(&client, FILE_NO, OFFSET, bytes(BYTES), 13));
    SENDS(&client, 0, BYTES, .file_id = FILE_ID, .number = WRITE, .length = 13, .kind = SMBLEASE_WRITE, .offset = OFFSET);
    NOTES(&client, 0, BYTES, .number = WRITE, .length = 13, .kind = SMBLEASE_WROTE, .offset = OFFSET, .file = FILE_NO);
    MUST(smblease_client_take_write_failed(&client, FILE_ID, WRITE, DENIED));
    NOTES(&client, 0, NULL, .number = WRITE, .kind = SMBLEASE_SETTLED, .outcome = SMBLEASE_WRITE_FAILED);
    ANSWERS(&client, NULL, .kind = SMBLEASE_ANSWER_FAILED, .status = DENIED);
    smblease_client_free(&client);
    opened(&client, 7);
    MUST(smblease_client_write(&client, FILE_NO, OFFSET, bytes(BYTES), 13));
    NOTES(&client, 0, BYTES, .number = 1, .length = 13, .kind = SMBLEASE_WROTE, .offset = OFFSET, .file = FILE_NO, .buffered = 1);
    check("it is buffered", smblease_client_request_count(&client) == 0);
    MUST(smblease_client_write(&client, FILE_NO, 0x100000, bytes("x"), 1));
    ANSWERS(&client, NULL, .kind = SMBLEASE_ANSWER_REFUSED, .refusal = SMBLEASE_TOO_LONG);
    smblease_client_free(&client);
}

static void check_reads_and_closes(void) {
    struct smblease_client client = {0};
    struct smblease_break_message notice = broken(3, 1);
    struct smblease_ack_message kept = acknowledged(1);
    opened(&client, 3);
    MUST(smblease_client_read(&client, FILE_NO));
    SENDS(&client, 0, NULL, .file_id = FILE_ID, .kind = SMBLEASE_READ);
    MUST(smblease_client_take_read_done(&client, FILE_ID, bytes(BYTES), 13));
    ANSWERS(&client, BYTES, .length = 13, .kind = SMBLEASE_ANSWER_BYTES);
    MUST(smblease_client_read(&client, FILE_NO));
    ANSWERS(&client, BYTES, .length = 13, .kind = SMBLEASE_ANSWER_BYTES, .cached = 1);
    NOTES(&client, 0, BYTES, .length = 13, .kind = SMBLEASE_CACHED_READ, .file = FILE_NO);
    MUST(smblease_client_take_break(&client, &notice));
    ANSWERS(&client, NULL, .kind = SMBLEASE_ANSWER_QUIET);
    SENDS(&client, 0, kept.bytes, .length = 36, .kind = SMBLEASE_ACKNOWLEDGE);
    NOTES(&client, 0, NULL, .kind = SMBLEASE_BELIEVES, .state = 1, .file = FILE_NO);
    MUST(smblease_client_close(&client, FILE_NO));
    SENDS(&client, 0, NULL, .file_id = FILE_ID, .kind = SMBLEASE_CLOSE);
    MUST(smblease_client_close(&client, FILE_NO));
    ANSWERS(&client, NULL, .kind = SMBLEASE_ANSWER_REFUSED, .refusal = SMBLEASE_NOT_OPEN);
    smblease_client_free(&client);
}

/* One field of the terms is another, and so is what it stands for in the request, and nothing else of that. */
static void check_terms(void) {
    static const struct smblease_open_terms changed[] = {
        {.want = 5, .file = FILE_NO, .access = 3, .share = 2, .durable = 1},
        {.want = 7, .file = OTHER_FILE, .access = 3, .share = 2, .durable = 1},
        {.want = 7, .file = FILE_NO, .access = 1, .share = 2, .durable = 1},
        {.want = 7, .file = FILE_NO, .access = 3, .share = 3, .durable = 1},
        {.want = 7, .file = FILE_NO, .access = 3, .share = 2, .durable = 0},
        {.want = 7, .file = FILE_NO, .access = 3, .share = 2, .durable = 0x80}};
    for (size_t k = 0; k < sizeof changed / sizeof changed[0]; k++) {
        const struct smblease_open_terms *how = &changed[k];
        struct smblease_client client = {0};
        struct smblease_key whose = {{0}};
        uint8_t room[ROOM] = {0};
        opening(&client, &guid, how);
        smblease_client_key(&guid, how->file, &whose);
        SENDS(&client, 0, room, .length = asked(room, whose.bytes, how->want, how->durable), .kind = SMBLEASE_CREATE,
              .file = how->file, .access = how->access, .share = how->share);
        smblease_client_free(&client);
    }
}

/* The first twelve bytes of a ClientGuid are those of its keys; the others are in none. */
static void check_guid(void) {
    for (size_t k = 0; k <= 16; k++) {
        struct smblease_client client = {0};
        struct smblease_guid whose = guid;
        struct smblease_key found;
        uint8_t room[ROOM] = {0}, wanted[16];
        if (k < 16) whose.bytes[k] = 0x99;
        memcpy(wanted, key, sizeof wanted);
        if (k < 12) wanted[k] = 0x99;
        memset(&found, 0xa5, sizeof found);
        smblease_client_key(&whose, FILE_NO, &found);
        check("the key of a file", memcmp(found.bytes, wanted, sizeof wanted) == 0);
        opening(&client, &whose, &terms);
        SENDS(&client, 0, room, .length = asked(room, wanted, 7, 1), .kind = SMBLEASE_CREATE, .file = FILE_NO, .access = 3,
              .share = 2);
        smblease_client_free(&client);
    }
}

/* What a client makes of a break: the state that it believes, and the bytes of its acknowledgment. */
struct broken_to {
    uint32_t belief;
    size_t requests;
    uint8_t kept[36];
};

static struct broken_to after_break(const struct smblease_break_message *notice) {
    struct smblease_client client = {0};
    struct smblease_client_request request = {0};
    struct broken_to came;
    memset(&came, 0, sizeof came);
    opened(&client, 7);
    MUST(smblease_client_take_break(&client, notice));
    came.belief = smblease_client_belief(&client, FILE_NO);
    came.requests = smblease_client_request_count(&client);
    if (came.requests)
        MUST(smblease_client_request_at(&client, 0, &request, came.kept, sizeof came.kept));
    smblease_client_free(&client);
    return came;
}

/* StructureSize, the flag, the key and the new state matter; the epoch, the state that was and what is reserved don't. */
static void check_break(void) {
    struct smblease_break_message notice = broken(7, 3);
    struct broken_to usual = after_break(&notice);
    check("a break to RH", usual.belief == 3 && usual.requests == 1);
    for (size_t k = 0; k < sizeof notice.bytes; k++) {
        struct smblease_break_message changed = notice;
        changed.bytes[k] ^= 1;
        struct broken_to came = after_break(&changed);
        int matters = k < 2 || k == 4 || (k >= 8 && k < 24) || k == 28;
        check("a byte of a break", matters == (memcmp(&came, &usual, sizeof came) != 0));
    }
}

/* ---- the server ---- */

/* A server whose clients 0x22 and 0x33 are connected; the file has bytes. */
static void begun(struct smblease_server *server) {
    struct smblease_files files = {0};
    for (unsigned k = 1; k < FILE_NO; k++) MUST(smblease_files_add(&files, NULL, 0));
    MUST(smblease_files_add(&files, bytes(BYTES), 13));
    MUST(smblease_server_new(server, &files));
    MUST(smblease_server_join(server, CLIENT));
    MUST(smblease_server_join(server, OTHER_CLIENT));
}

static uint32_t creates(struct smblease_server *server, uint8_t client, const uint8_t *lease_key) {
    uint8_t room[ROOM] = {0};
    size_t length = asked(room, lease_key, 7, 1);
    return smblease_server_receive_create(server, client, FILE_NO, 3, 3, room, length);
}

/* So many FileIds are used, so that the next one is a number of its own. */
static void use_up(struct smblease_server *server, uint64_t count) {
    for (uint64_t file_id = 1; file_id <= count; file_id++) {
        MUST(smblease_server_receive_create(server, CLIENT, FILE_NO, 1, 3, NULL, 0));
        MUST(smblease_server_receive_close(server, CLIENT, file_id));
    }
}

static void check_outs(void) {
    enum { OPEN = 0x0444 };
    struct smblease_server server = {0};
    uint8_t room[ROOM] = {0};
    begun(&server);
    use_up(&server, OPEN - 1);
    MUST(creates(&server, CLIENT, key));
    GIVES_OUT(&server, 0, NULL, .kind = SMBLEASE_OUT_OPENED, .client = CLIENT, .file = FILE_NO);
    GIVES_OUT(&server, 1, room, .file_id = OPEN, .length = granted(room, 7, 1), .kind = SMBLEASE_OUT_CREATED, .client = CLIENT,
              .file = FILE_NO);
    MUST(smblease_server_receive_read(&server, CLIENT, OPEN));
    GIVES_OUT(&server, 0, BYTES, .file_id = OPEN, .length = 13, .kind = SMBLEASE_OUT_READ_DONE, .client = CLIENT);
    MUST(smblease_server_receive_write(&server, CLIENT, OPEN, NUMBER, OFFSET, bytes("eleven more"), 11));
    GIVES_OUT(&server, 0, "eleven more", .number = NUMBER, .length = 11, .kind = SMBLEASE_OUT_CHANGED, .offset = OFFSET,
              .client = CLIENT, .file = FILE_NO);
    GIVES_OUT(&server, 1, NULL, .file_id = OPEN, .number = NUMBER, .kind = SMBLEASE_OUT_WRITE_DONE, .client = CLIENT);
    MUST(smblease_server_receive_close(&server, CLIENT, OPEN));
    GIVES_OUT(&server, 0, NULL, .file_id = OPEN, .kind = SMBLEASE_OUT_CLOSED, .client = CLIENT);
    smblease_server_free(&server);
}

static void check_failures(void) {
    struct smblease_server server = {0};
    struct smblease_ack_message message = acknowledged(3);
    begun(&server);
    MUST(smblease_server_receive_create(&server, CLIENT, OTHER_FILE, 3, 3, NULL, 0));
    GIVES_OUT(&server, 0, NULL, .kind = SMBLEASE_OUT_CREATE_FAILED, .status = 0xC0000034, .client = CLIENT, .file = OTHER_FILE);
    MUST(smblease_server_receive_read(&server, CLIENT, FILE_ID));
    GIVES_OUT(&server, 0, NULL, .file_id = FILE_ID, .kind = SMBLEASE_OUT_READ_FAILED, .status = FILE_CLOSED, .client = CLIENT);
    MUST(smblease_server_receive_write(&server, CLIENT, FILE_ID, NUMBER, OFFSET, bytes(BYTES), 13));
    GIVES_OUT(&server, 0, NULL, .file_id = FILE_ID, .number = NUMBER, .kind = SMBLEASE_OUT_WRITE_FAILED, .status = FILE_CLOSED,
              .client = CLIENT);
    MUST(smblease_server_receive_close(&server, CLIENT, FILE_ID));
    GIVES_OUT(&server, 0, NULL, .file_id = FILE_ID, .kind = SMBLEASE_OUT_CLOSE_FAILED, .status = FILE_CLOSED, .client = CLIENT);
    MUST(smblease_server_receive_ack(&server, CLIENT, &message));
    GIVES_OUT(&server, 0, NULL, .kind = SMBLEASE_OUT_ACK_FAILED, .status = 0xC0000034, .client = CLIENT);
    smblease_server_free(&server);
}

/* The first client holds RWH, and the second one's create breaks that to RH. */
static void breaking(struct smblease_server *server) {
    struct smblease_break_message notice = broken(7, 3);
    begun(server);
    MUST(creates(server, CLIENT, key));
    MUST(creates(server, OTHER_CLIENT, other_key));
    check("one message", smblease_server_out_count(server) == 1);
    GIVES_OUT(server, 0, notice.bytes, .length = 44, .kind = SMBLEASE_OUT_BREAK, .client = CLIENT);
}

/* What came of an acknowledgment: the first message, and the lease's break. */
struct came_of_it {
    size_t outs;
    uint32_t kind, status, waits;
    uint8_t response[36];
};

static struct came_of_it after_ack(const struct smblease_ack_message *message) {
    static const struct smblease_key whose = {{TWELVE, FILE_NO, 0, 0, 0}};
    struct smblease_server server = {0};
    struct smblease_server_out out = {0};
    struct came_of_it came;
    memset(&came, 0, sizeof came);
    breaking(&server);
    MUST(smblease_server_receive_ack(&server, CLIENT, message));
    MUST(smblease_server_out_at(&server, 0, &out, came.response, sizeof came.response));
    came.outs = smblease_server_out_count(&server);
    came.kind = out.kind;
    came.status = out.status;
    came.waits = smblease_server_breaking(&server, CLIENT, &whose);
    smblease_server_free(&server);
    return came;
}

/* StructureSize, the key and the state matter; the flags, the duration and what is reserved don't. */
static void check_acknowledgment(void) {
    struct smblease_ack_message message = acknowledged(3);
    struct came_of_it usual = after_ack(&message);
    check("an acknowledgment of RH", usual.outs == 3 && usual.kind == SMBLEASE_OUT_ACK_DONE && usual.waits == 0
                                         && memcmp(usual.response, message.bytes, sizeof message.bytes) == 0);
    for (size_t k = 0; k < sizeof message.bytes; k++) {
        struct smblease_ack_message changed = message;
        changed.bytes[k] ^= 1;
        struct came_of_it came = after_ack(&changed);
        int matters = k < 2 || (k >= 8 && k < 24) || k == 24;
        check("a byte of an acknowledgment", matters == (memcmp(&came, &usual, sizeof came) != 0));
    }
}

/* A key of which one byte is another is the key of no lease that breaks. */
static void check_keys(void) {
    struct smblease_server server = {0};
    struct smblease_key right = {{0}};
    memcpy(right.bytes, key, sizeof key);
    breaking(&server);
    for (size_t k = 0; k < 16; k++) {
        struct smblease_key wrong = right;
        wrong.bytes[k] ^= 1;
        check("another key's break", !smblease_server_breaking(&server, CLIENT, &wrong));
        MUST(smblease_server_expire(&server, CLIENT, &wrong));
        check("another key's timer", smblease_server_out_count(&server) == 0
                                         && smblease_server_breaking(&server, CLIENT, &right) == 1);
    }
    MUST(smblease_server_expire(&server, CLIENT, &right));
    check("the timer", smblease_server_out_count(&server) > 0 && !smblease_server_breaking(&server, CLIENT, &right));
    smblease_server_free(&server);
}

/* Whoever asks under the lease's own key may have W, and nobody else. */
static void check_maybe_keys(void) {
    struct smblease_server server = {0};
    struct smblease_maybe_key right = {.has_key = 1};
    memcpy(right.bytes, key, sizeof key);
    begun(&server);
    MUST(creates(&server, CLIENT, key));
    check("its own key", smblease_server_allowed(&server, CLIENT, &right, FILE_NO, 7) == 7);
    for (size_t k = 0; k < 16; k++) {
        struct smblease_maybe_key wrong = right;
        wrong.bytes[k] ^= 1;
        check("another key", smblease_server_allowed(&server, CLIENT, &wrong, FILE_NO, 7) == 3);
    }
    right.has_key = 0x80;
    check("any other number is yes", smblease_server_allowed(&server, CLIENT, &right, FILE_NO, 7) == 7);
    right.has_key = 0;
    check("no key", smblease_server_allowed(&server, CLIENT, &right, FILE_NO, 7) == 3);
    smblease_server_free(&server);
}

int main(void) {
    check_open();
    check_writes();
    check_reads_and_closes();
    check_terms();
    check_guid();
    check_break();
    check_outs();
    check_failures();
    check_acknowledgment();
    check_keys();
    check_maybe_keys();
    return wrong_ones != 0;
}
