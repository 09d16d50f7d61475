/* Handles that hold nothing, numbers that stand for nothing, and rooms that are too short. Prints what isn't as declared; its
   status is how often. */
#include <smblease_machines.h>

#include <stdio.h>
#include <string.h>

static int wrong;

static void is(unsigned long long had, unsigned long long wanted, int line) {
    if (had != wanted) {
        printf("line %d: %llu in place of %llu\n", line, had, wanted);
        wrong++;
    }
}

#define IS(had, wanted) is((had), (wanted), __LINE__)

static void of_no_client(void) {
    struct smblease_client client = {0};
    struct smblease_open_terms terms = {7, 1, 3, 3, 0, {0}};
    struct smblease_answer answer = {9, 9, 9, 9, 9, {9}};
    struct smblease_client_request request = {0};
    struct smblease_break_message notice = {{0}};
    uint8_t room[4] = {1, 2, 3, 4};
    IS(smblease_client_connect(&client), SMBLEASE_NONE);
    IS(smblease_client_notice(&client), SMBLEASE_NONE);
    IS(smblease_client_open(&client, &terms), SMBLEASE_NONE);
    IS(smblease_client_write(&client, 1, 0, room, 4), SMBLEASE_NONE);
    IS(smblease_client_write(&client, 1, 0, NULL, 0), SMBLEASE_NONE);
    IS(smblease_client_take_break(&client, &notice), SMBLEASE_NONE);
    IS(smblease_client_take_read_done(&client, 1, room, 4), SMBLEASE_NONE);
    IS(smblease_client_answer(&client, &answer, room, 4), SMBLEASE_NONE);
    IS(answer.length, 9);
    IS(smblease_client_request_count(&client), 0);
    IS(smblease_client_request_at(&client, 0, &request, room, 4), SMBLEASE_NONE);
    IS(smblease_client_belief(&client, 1), 0);
    IS(room[0], 1);
    terms.access = 0;
    IS(smblease_client_open(&client, &terms), SMBLEASE_NO_SUCH);
    smblease_client_free(&client);
    IS(client.state != NULL, 0);
}

static void of_a_client(void) {
    static const uint8_t key[16] = {1, 2, 3, 4, 5, 6, 7, 8, 9, 10, 11, 12, 2, 0, 0, 0};
    struct smblease_client client = {0};
    struct smblease_guid guid = {{1, 2, 3, 4, 5, 6, 7, 8, 9, 10, 11, 12, 13, 14, 15, 16}};
    struct smblease_key found = {{0}};
    struct smblease_open_terms terms = {7, 2, 3, 4, 0, {0}};
    struct smblease_answer answer = {0};
    struct smblease_client_request request = {0};
    uint8_t room[200] = {0};
    IS(smblease_client_new(&client, &guid, 2), SMBLEASE_DONE);
    IS(smblease_client_new(&client, &guid, 2), SMBLEASE_DONE);
    IS(smblease_client_open(&client, &terms), SMBLEASE_NO_SUCH);
    terms.share = 3;
    IS(smblease_client_open(&client, &terms), SMBLEASE_DONE);
    IS(smblease_client_answer(&client, &answer, NULL, 0), SMBLEASE_DONE);
    IS(answer.kind, SMBLEASE_ANSWER_REFUSED);
    IS(answer.refusal, SMBLEASE_OFFLINE);
    IS(smblease_client_connect(&client), SMBLEASE_DONE);
    IS(smblease_client_open(&client, &terms), SMBLEASE_DONE);
    IS(smblease_client_answer(&client, &answer, NULL, 0), SMBLEASE_DONE);
    IS(answer.kind, SMBLEASE_ANSWER_WAITING);
    IS(smblease_client_request_count(&client), 1);
    /* the create contexts of a lease are 56 bytes, and begin with a Next of 0 */
    room[0] = 9;
    IS(smblease_client_request_at(&client, 0, &request, room, 55), SMBLEASE_DONE);
    IS(request.length, 56);
    IS(room[0], 9);
    IS(smblease_client_request_at(&client, 0, &request, room, 56), SMBLEASE_DONE);
    IS(room[0], 0);
    IS(request.file * 100 + request.access * 10 + request.share, 233);
    smblease_client_key(&guid, 2, &found);
    IS((unsigned)memcmp(found.bytes, key, 16), 0);
    IS((unsigned)memcmp(room + 24, key, 16), 0);
    IS(smblease_client_request_at(&client, 1, &request, room, 200), SMBLEASE_NO_SUCH);
    smblease_client_free(&client);
}

/* A client whose file is open: answers of the server and of the cache. */
static void of_answers(void) {
    struct smblease_client client = {0};
    struct smblease_guid guid = {{0}};
    struct smblease_open_terms terms = {7, 1, 3, 3, 0, {0}};
    struct smblease_answer answer = {0};
    struct smblease_client_request request = {0};
    uint8_t room[56] = {0};
    IS(smblease_client_new(&client, &guid, 1), SMBLEASE_DONE);
    IS(smblease_client_connect(&client), SMBLEASE_DONE);
    IS(smblease_client_open(&client, &terms), SMBLEASE_DONE);
    IS(smblease_client_request_at(&client, 0, &request, room, 56), SMBLEASE_DONE);
    /* a lease is granted in the text that asks for it */
    IS(smblease_client_take_created(&client, 1, 9, room, 56), SMBLEASE_DONE);
    IS(smblease_client_belief(&client, 1), 7);
    IS(smblease_client_read(&client, 1), SMBLEASE_DONE);
    IS(smblease_client_request_at(&client, 0, &request, room, 56), SMBLEASE_DONE);
    IS(request.kind, SMBLEASE_READ);
    IS(request.file_id, 9);
    IS(smblease_client_take_read_failed(&client, 9, 0xC0000022), SMBLEASE_DONE);
    IS(smblease_client_answer(&client, &answer, NULL, 0), SMBLEASE_DONE);
    IS(answer.kind, SMBLEASE_ANSWER_FAILED);
    IS(answer.status, 0xC0000022);
    IS(answer.refusal, 0);
    IS(smblease_client_read(&client, 1), SMBLEASE_DONE);
    IS(smblease_client_take_read_done(&client, 9, (const uint8_t *)"ab", 2), SMBLEASE_DONE);
    IS(smblease_client_read(&client, 1), SMBLEASE_DONE);
    IS(smblease_client_answer(&client, &answer, room, 56), SMBLEASE_DONE);
    IS(answer.kind, SMBLEASE_ANSWER_BYTES);
    IS(answer.length, 2);
    IS(answer.cached, 1);
    IS(room[1], 'b');
    smblease_client_free(&client);
}

static void of_a_server(void) {
    static uint8_t long_file[1048577];
    struct smblease_files files = {0};
    struct smblease_server server = {0};
    struct smblease_server_out out = {0};
    struct smblease_key key = {{0}};
    struct smblease_maybe_key no_key = {{0}, 0};
    uint64_t count = 7;
    uint8_t room[4] = {0};
    IS(smblease_server_join(&server, 1), SMBLEASE_NONE);
    IS(smblease_server_content(&server, 1, &count, room, 4), SMBLEASE_NONE);
    IS(smblease_files_add(&files, long_file, sizeof long_file), SMBLEASE_NO_SUCH);
    IS(smblease_files_add(&files, (const uint8_t *)"abcde", 5), SMBLEASE_DONE);
    for (int k = 2; k <= 255; k++)
        IS(smblease_files_add(&files, NULL, 0), SMBLEASE_DONE);
    IS(smblease_files_add(&files, NULL, 0), SMBLEASE_NO_SUCH);
    IS(smblease_server_new(&server, &files), SMBLEASE_DONE);
    IS(files.state != NULL, 0);
    IS(smblease_server_content(&server, 1, &count, room, 4), SMBLEASE_DONE);
    IS(count, 5);
    IS(room[0], 0);
    IS(smblease_server_content(&server, 0, &count, room, 4), SMBLEASE_NO_SUCH);
    IS(smblease_server_join(&server, 1), SMBLEASE_DONE);
    IS(smblease_server_connected(&server, 1), 1);
    IS(smblease_server_connected(&server, 2), 0);
    IS(smblease_server_receive_create(&server, 1, 1, 4, 0, NULL, 0), SMBLEASE_NO_SUCH);
    IS(smblease_server_receive_read(&server, 1, 77), SMBLEASE_DONE);
    IS(smblease_server_out_count(&server), 1);
    IS(smblease_server_out_at(&server, 0, &out, room, 4), SMBLEASE_DONE);
    IS(out.kind, SMBLEASE_OUT_READ_FAILED);
    IS(out.status, 0xC0000128);
    IS(out.file_id, 77);
    IS(smblease_server_out_at(&server, 1, &out, room, 4), SMBLEASE_NO_SUCH);
    IS(smblease_server_allowed(&server, 1, &no_key, 1, 7), 7);
    IS(smblease_server_breaking(&server, 1, &key), 0);
    IS(smblease_server_left_behind(&server, 1), 0);
    IS(smblease_server_kept(&server, 1, 1, &count), SMBLEASE_NO_SUCH);
    smblease_server_free(&server);
    smblease_files_free(&files);
}

static void of_rules(void) {
    struct smblease_files files = {0};
    struct smblease_server server = {0};
    IS(smblease_files_add(&files, (const uint8_t *)"abcde", 5), SMBLEASE_DONE);
    IS(smblease_server_new_with_rules(&server, &files, SMBLEASE_BY_KEY + 1, SMBLEASE_WHOLE), SMBLEASE_NO_SUCH);
    IS(smblease_server_new_with_rules(&server, &files, SMBLEASE_BY_KEY, SMBLEASE_WHOLE + 1), SMBLEASE_NO_SUCH);
    IS(server.state != NULL, 0);
    IS(files.state != NULL, 1);
    IS(smblease_server_new_with_rules(&server, &files, SMBLEASE_BY_KEY, SMBLEASE_WHOLE), SMBLEASE_DONE);
    IS(files.state != NULL, 0);
    IS(smblease_server_join(&server, 1), SMBLEASE_DONE);
    smblease_server_free(&server);
}

/* A durable open of client 2 on file 1 waits for its client; and a server takes the place of another one. */
static void of_kept_opens(void) {
    struct smblease_files files = {0};
    struct smblease_server server = {0};
    struct smblease_client client = {0};
    struct smblease_guid guid = {{2}};
    struct smblease_open_terms terms = {7, 1, 3, 3, 1, {0}};
    struct smblease_client_request request = {0};
    uint64_t kept = 0;
    uint8_t room[200] = {0};
    IS(smblease_client_new(&client, &guid, 2), SMBLEASE_DONE);
    IS(smblease_client_connect(&client), SMBLEASE_DONE);
    IS(smblease_client_open(&client, &terms), SMBLEASE_DONE);
    IS(smblease_client_request_at(&client, 0, &request, room, sizeof room), SMBLEASE_DONE);
    for (int k = 0; k < 2; k++) {
        IS(smblease_files_add(&files, NULL, 0), SMBLEASE_DONE);
        IS(smblease_files_add(&files, NULL, 0), SMBLEASE_DONE);
        IS(smblease_server_new(&server, &files), SMBLEASE_DONE);
        IS(smblease_server_join(&server, 2), SMBLEASE_DONE);
    }
    IS(smblease_server_receive_create(&server, 2, 1, 3, 3, room, request.length), SMBLEASE_DONE);
    IS(smblease_server_kept(&server, 2, 1, &kept), SMBLEASE_NO_SUCH);
    IS(smblease_server_cut(&server, 2), SMBLEASE_DONE);
    IS(smblease_server_kept(&server, 1, 2, &kept), SMBLEASE_NO_SUCH);
    IS(kept, 0);
    IS(smblease_server_kept(&server, 2, 1, &kept), SMBLEASE_DONE);
    IS(kept, 1);
    smblease_server_free(&server);
    smblease_client_free(&client);
}

int main(void) {
    of_no_client();
    of_a_client();
    of_answers();
    of_a_server();
    of_rules();
    of_kept_opens();
    return wrong;
}
