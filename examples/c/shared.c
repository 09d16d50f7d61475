/* Two client machines and a server machine share a file: plays examples/shared.txt, and prints the record of what happened.
     cc shared.c $(pkg-config --cflags --libs smblease) && ./a.out ../shared.txt
   A program that embeds a machine sends its requests over a connection, and hands in what comes back. Here they lie in lists. */
#include <smblease_machines.h>
#include <stdio.h>
#include <stdlib.h>
#include <string.h>
enum { ROOM = 1024, MOST = 16 };
struct request { struct smblease_client_request it; uint8_t bytes[ROOM]; };
struct reply { struct smblease_server_out it; uint8_t bytes[ROOM]; };
static struct smblease_files files;
static struct smblease_server server;
static struct smblease_client client[3]; /* numbered from 1 */
static struct request requests[3][MOST];
static struct reply replies[3][MOST];
static size_t asked[3], served[3], told[3], taken[3];

/* A program that goes on would look at the outcome: a machine may be lost for want of memory. */
static void need(uint32_t outcome) {
    if (outcome != SMBLEASE_DONE)
        exit(1 + (int)outcome);
}

static void print_bytes(const uint8_t *bytes, uint64_t length, const char *after) {
    for (uint64_t k = 0; k < length; k++)
        printf("%02x", bytes[k]);
    puts(after);
}

/* What a client noted, and the requests that it sends. */
static void after_client(unsigned c) {
    static const char *const outcomes[] = {"", "done", "failed", "unknown", "lost"};
    static const char *const states[] = {"none", "R", "H", "RH", "W", "RW", "WH", "RWH"};
    struct smblease_note note = {0};
    uint8_t bytes[ROOM] = {0};
    for (size_t k = 0; k < smblease_client_note_count(&client[c]); k++) {
        need(smblease_client_note_at(&client[c], k, &note, bytes, ROOM));
        if (note.kind == SMBLEASE_SETTLED)
            printf("settled %u %u %s\n", c, (unsigned)note.number, outcomes[note.outcome]);
        else if (note.kind == SMBLEASE_BELIEVES)
            printf("believes %u %u %s\n", c, note.file, states[note.state]);
        else if (note.kind == SMBLEASE_CACHED_READ)
            printf("cachedread %u %u ", c, note.file);
        else
            printf("wrote %u %u %u %u ", c, note.file, (unsigned)note.number, (unsigned)note.offset);
        if (note.length)
            print_bytes(bytes, note.length, note.kind == SMBLEASE_CACHED_READ ? "" : note.buffered ? " buffered" : " through");
    }
    for (size_t k = 0; k < smblease_client_request_count(&client[c]); k++) {
        struct request *one = &requests[c][asked[c]++ % MOST];
        need(smblease_client_request_at(&client[c], k, &one->it, one->bytes, ROOM));
    }
}

/* What the server did, and the messages that it sends. */
static void after_server(void) {
    for (size_t k = 0; k < smblease_server_out_count(&server); k++) {
        struct reply one = {{0}, {0}};
        need(smblease_server_out_at(&server, k, &one.it, one.bytes, ROOM));
        if (one.it.kind == SMBLEASE_OUT_OPENED)
            printf("opened %u %u\n", one.it.file, one.it.client);
        else if (one.it.kind == SMBLEASE_OUT_CHANGED) {
            printf("changed %u %u %u %u ", one.it.file, one.it.client, (unsigned)one.it.number, (unsigned)one.it.offset);
            print_bytes(one.bytes, one.it.length, "");
        } else {
            printf("sent %u\n", one.it.client);
            replies[one.it.client][told[one.it.client]++ % MOST] = one;
        }
    }
}

static void serve(uint8_t c) {
    const struct request *one = &requests[c][served[c]++ % MOST];
    const struct smblease_client_request *r = &one->it;
    struct smblease_ack_message ack;
    memcpy(ack.bytes, one->bytes, sizeof ack.bytes);
    if (r->kind == SMBLEASE_CREATE)
        need(smblease_server_receive_create(&server, c, r->file, r->access, r->share, one->bytes, r->length));
    else if (r->kind == SMBLEASE_READ)
        need(smblease_server_receive_read(&server, c, r->file_id));
    else if (r->kind == SMBLEASE_WRITE)
        need(smblease_server_receive_write(&server, c, r->file_id, r->number, r->offset, one->bytes, r->length));
    else
        need(smblease_server_receive_ack(&server, c, &ack));
    after_server();
}

static void take(uint8_t c) {
    const struct reply *one = &replies[c][taken[c]++ % MOST];
    struct smblease_break_message notice;
    memcpy(notice.bytes, one->bytes, sizeof notice.bytes);
    printf("took %u\n", c);
    if (one->it.kind == SMBLEASE_OUT_CREATED)
        need(smblease_client_take_created(&client[c], one->it.file, one->it.file_id, one->bytes, one->it.length));
    else if (one->it.kind == SMBLEASE_OUT_READ_DONE)
        need(smblease_client_take_read_done(&client[c], one->it.file_id, one->bytes, one->it.length));
    else if (one->it.kind == SMBLEASE_OUT_WRITE_DONE)
        need(smblease_client_take_write_done(&client[c], one->it.file_id, one->it.number));
    else
        need(smblease_client_take_break(&client[c], &notice));
    after_client(c);
}

/* The bytes that hexadecimal digits write; hyphens are passed over. */
static size_t unhex(const char *digits, uint8_t *bytes) {
    uint8_t *start = bytes;
    for (; sscanf(digits += strspn(digits, "-"), "%2hhx", bytes) == 1; digits += 2)
        bytes++;
    return (size_t)(bytes - start);
}

/* The files come first, then the clients, then what they do. */
static void happen(const char *word, const char *rest) {
    static const struct smblease_open_terms terms = {7, 1, 3, 3, 0, {0}}; /* RWH of file 1, to read and write, and so may others */
    static uint8_t clients;
    uint8_t bytes[ROOM] = {0}, c = (uint8_t)(rest[0] == '1' ? 1 : 2);
    struct smblease_guid guid = {{0}};
    if (strcmp(word, "file") == 0) {
        need(smblease_files_add(&files, bytes, unhex(rest, bytes)));
        printf("start 1 %s\n", rest);
    } else if (strcmp(word, "client") == 0) {
        unhex(rest, guid.bytes);
        need(smblease_client_new(&client[++clients], &guid, 1));
    } else if (strcmp(word, "connect") == 0) {
        if (!server.state)
            need(smblease_server_new(&server, &files));
        printf("joined %u\n", c);
        need(smblease_server_join(&server, c));
        need(smblease_client_connect(&client[c]));
        after_client(c);
    } else if (strcmp(word, "serve") == 0 || strcmp(word, "take") == 0)
        word[0] == 's' ? serve(c) : take(c);
    else {
        need(word[0] == 'o' ? smblease_client_open(&client[c], &terms) : word[0] == 'r' ? smblease_client_read(&client[c], 1)
                            : smblease_client_write(&client[c], 1, 0, (const uint8_t *)"X", 1));
        after_client(c);
    }
}

int main(int argc, char **argv) {
    char line[256], word[16], rest[128];
    FILE *text = argc == 2 ? fopen(argv[1], "r") : NULL;
    if (!text) return fputs("usage: shared FILE (a schedule that can be read)\n", stderr), 2;
    while (fgets(line, sizeof line, text))
        if (line[0] != '#' && sscanf(line, "%15s %127s", word, rest) == 2)
            happen(word, rest);
    for (unsigned c = 1; c <= 2; c++) smblease_client_free(&client[c]);
    smblease_server_free(&server);
    return fclose(text);
}
