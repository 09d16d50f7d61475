/* Plays a schedule (docs/FORMATS.md) through handles of smblease_machines.h, and prints the record of what happened, as
   `leasecheck replay` does but for its last line.

     play FILE       status 0; 2 where FILE can't be read or isn't a schedule that fits; 3 where memory ran out and a
                     machine was lost (the record ends there); 4 where there was no memory at a second try either; 9
                     where a call isn't as declared

   The links between clients and server are kept here, by the rules of events. */
#include <smblease_machines.h>

#include <stdio.h>
#include <stdlib.h>
#include <string.h>

enum { CLIENTS = 16, FILES = 8, MESSAGES = 64, BYTES = 4096, LINE = 3 * BYTES, FIELDS = 9 };

/* A request or a message of the server on its way. */
struct message {
    struct smblease_client_request request;
    struct smblease_server_out out;
    uint8_t bytes[BYTES];
};

struct queue {
    struct message of[MESSAGES];
    size_t first, count;
};

enum link { LINK_DOWN, LINK_UP, LINK_CUT };

struct seat {
    struct smblease_client client;
    struct smblease_guid guid;
    enum link link;
    struct queue requests, replies;
};

static struct seat seats[CLIENTS];
static unsigned clients, files;
static struct smblease_files contents;
static struct smblease_server server;

static void end(int status) {
    fflush(stdout);
    for (unsigned c = 0; c < CLIENTS; c++)
        smblease_client_free(&seats[c].client);
    smblease_files_free(&contents);
    smblease_server_free(&server);
    exit(status);
}

static void refuse_line(const char *why) {
    fprintf(stderr, "play: %s\n", why);
    end(2);
}

static void end_unless_done(uint32_t came, const char *call) {
    if (came == SMBLEASE_DONE)
        return;
    fprintf(stderr, "play: %u of %s\n", (unsigned)came, call);
    end(came == SMBLEASE_LOST ? 3 : came == SMBLEASE_NO_MEMORY ? 4 : 9);
}

/* A call that there was no memory for changed nothing, and is made once more. */
#define MUST(call) \
    do { \
        uint32_t came = (call); \
        if (came == SMBLEASE_NO_MEMORY) \
            came = (call); \
        end_unless_done(came, #call); \
    } while (0)

/* ---- what is printed ---- */

static void print_bytes(const uint8_t *bytes, uint64_t length) {
    if (length == 0)
        putchar('-');
    for (uint64_t k = 0; k < length; k++)
        printf("%02x", bytes[k]);
}

static void print_state(uint32_t state) {
    printf("%s%s%s%s\n", state & 1 ? "R" : "", state & 4 ? "W" : "", state & 2 ? "H" : "", state & 7 ? "" : "none");
}

static void print_note(unsigned c, const struct smblease_note *note, const uint8_t *bytes) {
    static const char *const outcomes[] = {"", "done", "failed", "unknown", "lost"};
    switch (note->kind) {
    case SMBLEASE_SETTLED:
        printf("settled %u %llu %s\n", c, (unsigned long long)note->number, outcomes[note->outcome]);
        break;
    case SMBLEASE_WROTE:
        printf("wrote %u %u %llu %u ", c, note->file, (unsigned long long)note->number, (unsigned)note->offset);
        print_bytes(bytes, note->length);
        puts(note->buffered ? " buffered" : " through");
        break;
    case SMBLEASE_BELIEVES:
        printf("believes %u %u ", c, note->file);
        print_state(note->state);
        break;
    default:
        printf("cachedread %u %u ", c, note->file);
        print_bytes(bytes, note->length);
        putchar('\n');
    }
}

/* ---- messages on their way ---- */

static struct message *pushed(struct queue *queue) {
    if (queue->count == MESSAGES)
        refuse_line("more messages on their way than there is room for");
    return &queue->of[(queue->first + queue->count++) % MESSAGES];
}

static struct message *popped(struct queue *queue) {
    struct message *one = &queue->of[queue->first];
    if (queue->count == 0)
        return NULL;
    queue->first = (queue->first + 1) % MESSAGES;
    queue->count--;
    return one;
}

static void must_fit(uint64_t length) {
    if (length > BYTES)
        refuse_line("more bytes than there is room for");
}

/* What a client gave out: its notes are facts, and its requests go on their way where its link is up. */
static void tell_client(unsigned c) {
    struct seat *seat = &seats[c - 1];
    size_t requests = smblease_client_request_count(&seat->client), notes = smblease_client_note_count(&seat->client);
    for (size_t k = 0; k < notes; k++) {
        static uint8_t bytes[BYTES];
        struct smblease_note note = {0};
        MUST(smblease_client_note_at(&seat->client, k, &note, bytes, BYTES));
        must_fit(note.length);
        print_note(c, &note, bytes);
    }
    for (size_t k = 0; k < requests && seat->link == LINK_UP; k++) {
        struct message *one = pushed(&seat->requests);
        MUST(smblease_client_request_at(&seat->client, k, &one->request, one->bytes, BYTES));
        must_fit(one->request.length);
    }
}

/* What the server gave out. */
static void tell_server(void) {
    size_t outs = smblease_server_out_count(&server);
    for (size_t k = 0; k < outs; k++) {
        static struct message one;
        MUST(smblease_server_out_at(&server, k, &one.out, one.bytes, BYTES));
        must_fit(one.out.length);
        if (one.out.kind == SMBLEASE_OUT_OPENED) {
            printf("opened %u %u\n", one.out.file, one.out.client);
        } else if (one.out.kind == SMBLEASE_OUT_CHANGED) {
            printf("changed %u %u %llu %u ", one.out.file, one.out.client, (unsigned long long)one.out.number,
                   (unsigned)one.out.offset);
            print_bytes(one.bytes, one.out.length);
            putchar('\n');
        } else if (seats[one.out.client - 1].link == LINK_UP) {
            printf("sent %u\n", one.out.client);
            *pushed(&seats[one.out.client - 1].replies) = one;
        }
    }
}

/* The server takes a request. */
static uint32_t receive(uint8_t c, const struct message *one) {
    const struct smblease_client_request *r = &one->request;
    struct smblease_ack_message ack;
    switch (r->kind) {
    case SMBLEASE_CREATE:
        return smblease_server_receive_create(&server, c, r->file, r->access, r->share, one->bytes, r->length);
    case SMBLEASE_READ:
        return smblease_server_receive_read(&server, c, r->file_id);
    case SMBLEASE_WRITE:
        return smblease_server_receive_write(&server, c, r->file_id, r->number, r->offset, one->bytes, r->length);
    case SMBLEASE_CLOSE:
        return smblease_server_receive_close(&server, c, r->file_id);
    default:
        memcpy(ack.bytes, one->bytes, sizeof ack.bytes);
        return smblease_server_receive_ack(&server, c, &ack);
    }
}

/* A client takes a message that has bytes. */
static uint32_t take_bytes(struct smblease_client *client, const struct message *one) {
    const struct smblease_server_out *out = &one->out;
    struct smblease_break_message notice;
    struct smblease_ack_message ack;
    switch (out->kind) {
    case SMBLEASE_OUT_CREATED:
        return smblease_client_take_created(client, out->file, out->file_id, one->bytes, out->length);
    case SMBLEASE_OUT_READ_DONE:
        return smblease_client_take_read_done(client, out->file_id, one->bytes, out->length);
    case SMBLEASE_OUT_BREAK:
        memcpy(notice.bytes, one->bytes, sizeof notice.bytes);
        return smblease_client_take_break(client, &notice);
    default:
        memcpy(ack.bytes, one->bytes, sizeof ack.bytes);
        return smblease_client_take_ack_done(client, &ack);
    }
}

/* A client takes a message. */
static uint32_t take(struct smblease_client *client, const struct message *one) {
    const struct smblease_server_out *out = &one->out;
    switch (out->kind) {
    case SMBLEASE_OUT_CREATE_FAILED:
        return smblease_client_take_create_failed(client, out->file, out->status);
    case SMBLEASE_OUT_READ_FAILED:
        return smblease_client_take_read_failed(client, out->file_id, out->status);
    case SMBLEASE_OUT_WRITE_DONE:
        return smblease_client_take_write_done(client, out->file_id, out->number);
    case SMBLEASE_OUT_WRITE_FAILED:
        return smblease_client_take_write_failed(client, out->file_id, out->number, out->status);
    case SMBLEASE_OUT_CLOSED:
        return smblease_client_take_closed(client, out->file_id);
    case SMBLEASE_OUT_CLOSE_FAILED:
        return smblease_client_take_close_failed(client, out->file_id, out->status);
    case SMBLEASE_OUT_ACK_FAILED:
        return smblease_client_take_ack_failed(client, out->status);
    default:
        return take_bytes(client, one);
    }
}

/* ---- lines ---- */

static char *field[FIELDS + 1];
static int fields;

static int is(int place, const char *word) {
    return place < fields && strcmp(field[place], word) == 0;
}

static unsigned long long number(int place) {
    return place < fields ? strtoull(field[place], NULL, 10) : 0;
}

static uint8_t uses(int place) {
    return (uint8_t)(is(place, "r") ? 1 : is(place, "w") ? 2 : is(place, "rw") ? 3 : 0);
}

static uint32_t state(int place) {
    const char *letters = place < fields && !is(place, "none") ? field[place] : "";
    return (strchr(letters, 'R') ? 1u : 0u) | (strchr(letters, 'W') ? 4u : 0u) | (strchr(letters, 'H') ? 2u : 0u);
}

/* The bytes that hexadecimal digits write, as far as they go; other characters are passed over. */
static size_t unhex(const char *digits, uint8_t *bytes) {
    static const char values[] = "0123456789abcdef";
    size_t count = 0;
    for (; *digits; digits++) {
        const char *at = strchr(values, *digits >= 'A' && *digits <= 'F' ? *digits + 32 : *digits);
        if (!at)
            continue;
        must_fit(count / 2 + 1);
        bytes[count / 2] = (uint8_t)(count % 2 ? bytes[count / 2] | (at - values) : (at - values) << 4);
        count++;
    }
    return count / 2;
}

static size_t bytes_of(int place, uint8_t *bytes) {
    return place < fields ? unhex(field[place], bytes) : 0;
}

/* ---- events ---- */

static void command(unsigned c) {
    struct smblease_client *client = &seats[c - 1].client;
    struct smblease_open_terms terms = {state(5), (uint8_t)number(2), uses(3), uses(4), (uint8_t)is(6, "durable"), {0}};
    uint8_t bytes[BYTES], file = (uint8_t)number(2);
    if (is(0, "open"))
        MUST(smblease_client_open(client, &terms));
    else if (is(0, "close"))
        MUST(smblease_client_close(client, file));
    else if (is(0, "read"))
        MUST(smblease_client_read(client, file));
    else if (is(0, "flush"))
        MUST(smblease_client_flush(client, file));
    else {
        size_t length = bytes_of(4, bytes);
        MUST(smblease_client_write(client, file, (uint32_t)number(3), bytes, length));
    }
    tell_client(c);
}

static void move(unsigned c) {
    struct message *one = popped(is(0, "serve") ? &seats[c - 1].requests : &seats[c - 1].replies);
    if (!one)
        return;
    if (is(0, "serve")) {
        MUST(receive((uint8_t)c, one));
        tell_server();
    } else {
        printf("took %u\n", c);
        MUST(take(&seats[c - 1].client, one));
        tell_client(c);
    }
}

static void link_event(unsigned c) {
    struct seat *seat = &seats[c - 1];
    if (is(0, "cut") && seat->link == LINK_UP) {
        seat->link = LINK_CUT;
        seat->requests.count = seat->replies.count = 0;
        printf("dropped %u\n", c);
        MUST(smblease_server_cut(&server, (uint8_t)c));
        tell_server();
    } else if (is(0, "notice") && seat->link == LINK_CUT) {
        seat->link = LINK_DOWN;
        MUST(smblease_client_notice(&seat->client));
        tell_client(c);
    } else if (is(0, "connect") && seat->link == LINK_DOWN) {
        seat->link = LINK_UP;
        printf("joined %u\n", c);
        MUST(smblease_server_join(&server, (uint8_t)c));
        tell_server();
        MUST(smblease_client_connect(&seat->client));
        tell_client(c);
    }
}

static void timer(unsigned c) {
    struct smblease_key key = {{0}};
    uint64_t file_id = 0;
    uint8_t file = (uint8_t)number(2);
    if (number(2) > files)
        return;
    smblease_client_key(&seats[c - 1].guid, file, &key);
    if (is(0, "scavenge")) {
        if (smblease_server_kept(&server, (uint8_t)c, file, &file_id) != SMBLEASE_DONE)
            return;
        MUST(smblease_server_scavenge(&server, file_id));
    } else {
        if (!smblease_server_breaking(&server, (uint8_t)c, &key))
            return;
        printf("expired %u %u\n", c, file);
        MUST(smblease_server_expire(&server, (uint8_t)c, &key));
    }
    tell_server();
}

/* A request in the client's name that its machine didn't make. */
static void stray(unsigned c) {
    struct message *one;
    if (seats[c - 1].link != LINK_UP)
        return;
    printf("strayed %u\n", c);
    one = pushed(&seats[c - 1].requests);
    memset(one, 0, sizeof *one);
    if (is(2, "create")) {
        one->request.kind = SMBLEASE_CREATE;
        one->request.file = (uint8_t)number(3);
        one->request.access = uses(4);
        one->request.share = uses(5);
        one->request.length = bytes_of(6, one->bytes);
    } else if (is(2, "write")) {
        one->request.kind = SMBLEASE_WRITE;
        one->request.file_id = number(3);
        one->request.number = number(4);
        one->request.offset = (uint32_t)number(5);
        one->request.length = bytes_of(6, one->bytes);
    } else if (is(2, "ack")) {
        one->request.kind = SMBLEASE_ACKNOWLEDGE;
        one->request.length = bytes_of(3, one->bytes);
    } else {
        one->request.kind = is(2, "read") ? SMBLEASE_READ : SMBLEASE_CLOSE;
        one->request.file_id = number(3);
    }
}

/* A `file` or `client` line. */
static void set_up(void) {
    static uint8_t bytes[BYTES];
    if (is(0, "file") && files < FILES) {
        size_t length = bytes_of(1, bytes);
        MUST(smblease_files_add(&contents, bytes, length));
        printf("start %u ", ++files);
        print_bytes(bytes, length);
        putchar('\n');
    } else if (is(0, "client") && clients < CLIENTS) {
        size_t urn = fields > 1 && strncmp(field[1], "urn:uuid:", 9) == 0 ? 9 : 0;
        if (fields < 2 || unhex(field[1] + urn, bytes) != 16)
            refuse_line("a GUID that is none");
        memcpy(seats[clients++].guid.bytes, bytes, 16);
    } else
        refuse_line("too many files or clients");
}

/* All files and clients are known. */
static void begin(void) {
    MUST(smblease_server_new(&server, &contents));
    for (unsigned c = 0; c < clients; c++)
        MUST(smblease_client_new(&seats[c].client, &seats[c].guid, (uint8_t)files));
}

static void happen(void) {
    unsigned c = (unsigned)number(1);
    if (c < 1 || c > clients)
        return;
    if (is(0, "open") || is(0, "close") || is(0, "read") || is(0, "write") || is(0, "flush"))
        command(c);
    else if (is(0, "serve") || is(0, "take"))
        move(c);
    else if (is(0, "cut") || is(0, "notice") || is(0, "connect"))
        link_event(c);
    else if (is(0, "expire") || is(0, "scavenge"))
        timer(c);
    else if (is(0, "raw"))
        stray(c);
    else
        refuse_line("a line that is none of a schedule");
}

int main(int argc, char **argv) {
    static char line[LINE];
    int has_begun = 0;
    FILE *text = argc == 2 ? fopen(argv[1], "r") : NULL;
    if (!text)
        refuse_line("play FILE");
    while (fgets(line, LINE, text)) {
        line[strcspn(line, "\n")] = 0;
        if (line[0] == 0 || line[0] == '#')
            continue;
        fields = 0;
        for (char *word = strtok(line, " "); word && fields < FIELDS; word = strtok(NULL, " "))
            field[fields++] = word;
        if (is(0, "file") || is(0, "client")) {
            set_up();
            continue;
        }
        if (!has_begun)
            begin();
        has_begun = 1;
        happen();
    }
    fclose(text);
    end(0);
}
