/* Answers to reads of more than 64 KiB, up to the largest file of 1,048,576 bytes and one byte more: a client's handle takes each
   and gives its bytes out, from the server's answer, from the cache and in the note of the cached read. An answer that is longer
   than a file is passed over. Prints what isn't as declared; its status is how often. */
#include <smblease.h>
#include <smblease_machines.h>

#include <stdio.h>
#include <stdlib.h>
#include <string.h>

enum { FILE_NO = 1, FILE_ID = 7, LIMIT = 1048576, READS_CACHED = 1 };

static const struct smblease_guid guid = {{1, 2, 3, 4, 5, 6, 7, 8, 9, 10, 11, 12, 13, 14, 15, 16}};
static int wrong;

static void is(unsigned long long had, unsigned long long wanted, int line) {
    if (had != wanted) {
        printf("line %d: %llu in place of %llu\n", line, had, wanted);
        wrong++;
    }
}

#define IS(had, wanted) is((had), (wanted), __LINE__)

/* Bytes of which no two blocks of 64 KiB are the same. */
static uint8_t *numbered(size_t length) {
    uint8_t *bytes = malloc(length);
    if (bytes == NULL) exit(99);
    for (size_t k = 0; k < length; k++) bytes[k] = (uint8_t)(k * 131 + k / 65536 * 7 + 1);
    return bytes;
}

/* A client that has the file open with a lease on reads, and asks the server for its bytes. */
static void reading(struct smblease_client *client) {
    struct smblease_open_terms terms = {.want = READS_CACHED, .file = FILE_NO, .access = SMBLEASE_READS, .share = SMBLEASE_READS};
    struct smblease_create_answer granted = {.state = READS_CACHED, .has_lease = 1};
    struct smblease_client_request request = {0};
    struct smblease_key key = {{0}};
    uint8_t contexts[200] = {0};
    smblease_client_key(&guid, FILE_NO, &key);
    memcpy(granted.key, key.bytes, sizeof granted.key);
    size_t length = smblease_write_create_answer(&granted, contexts, sizeof contexts);
    IS(smblease_client_new(client, &guid, FILE_NO), SMBLEASE_DONE);
    IS(smblease_client_connect(client), SMBLEASE_DONE);
    IS(smblease_client_open(client, &terms), SMBLEASE_DONE);
    IS(smblease_client_take_created(client, FILE_NO, FILE_ID, contexts, length), SMBLEASE_DONE);
    IS(smblease_client_belief(client, FILE_NO), READS_CACHED);
    IS(smblease_client_read(client, FILE_NO), SMBLEASE_DONE);
    IS(smblease_client_request_count(client), 1);
    IS(smblease_client_request_at(client, 0, &request, NULL, 0), SMBLEASE_DONE);
    IS(request.kind, SMBLEASE_READ);
}

/* The last call was answered with these bytes. A room that is one byte too short stays as it is. */
static void answered(struct smblease_client *client, const uint8_t *bytes, size_t length, uint8_t cached) {
    struct smblease_answer answer = {0};
    uint8_t *room = calloc(length, 1);
    if (room == NULL) exit(99);
    IS(smblease_client_answer(client, &answer, room, length - 1), SMBLEASE_DONE);
    IS(answer.length, length);
    IS(room[0], 0);
    IS(smblease_client_answer(client, &answer, room, length), SMBLEASE_DONE);
    IS(answer.kind, SMBLEASE_ANSWER_BYTES);
    IS(answer.length, length);
    IS(answer.cached, cached);
    IS(memcmp(room, bytes, length) == 0, 1);
    free(room);
}

/* The last call noted a cached read of these bytes. */
static void noted(struct smblease_client *client, const uint8_t *bytes, size_t length) {
    struct smblease_note note = {0};
    uint8_t *room = calloc(length, 1);
    if (room == NULL) exit(99);
    IS(smblease_client_note_count(client), 1);
    IS(smblease_client_note_at(client, 0, &note, room, length), SMBLEASE_DONE);
    IS(note.kind, SMBLEASE_CACHED_READ);
    IS(note.length, length);
    IS(memcmp(room, bytes, length) == 0, 1);
    free(room);
}

static void takes(size_t length) {
    struct smblease_client client = {0};
    uint8_t *bytes = numbered(length);
    reading(&client);
    IS(smblease_client_take_read_done(&client, FILE_ID, bytes, length), SMBLEASE_DONE);
    answered(&client, bytes, length, 0);
    IS(smblease_client_read(&client, FILE_NO), SMBLEASE_DONE);
    answered(&client, bytes, length, 1);
    noted(&client, bytes, length);
    smblease_client_free(&client);
    free(bytes);
}

/* No file is so long: the answer is passed over, and the next one is taken. */
static void passes_over(void) {
    struct smblease_client client = {0};
    struct smblease_answer answer = {0};
    uint8_t *bytes = numbered(LIMIT + 1);
    reading(&client);
    IS(smblease_client_take_read_done(&client, FILE_ID, bytes, LIMIT + 1), SMBLEASE_DONE);
    IS(smblease_client_answer(&client, &answer, NULL, 0), SMBLEASE_DONE);
    IS(answer.kind, SMBLEASE_ANSWER_QUIET);
    IS(smblease_client_take_read_done(&client, FILE_ID, bytes, LIMIT), SMBLEASE_DONE);
    answered(&client, bytes, LIMIT, 0);
    smblease_client_free(&client);
    free(bytes);
}

int main(void) {
    takes(65536);
    takes(65537);
    takes(LIMIT);
    passes_over();
    return wrong;
}
