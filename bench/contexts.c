/* Reads or writes create contexts many times by the calls of smblease.h, as `lease_bench contexts` does:
   NAME contexts read|write|write_others COUNT. */
#include <smblease.h>
#include <stdio.h>
#include <stdlib.h>
#include <string.h>

/* A request with a lease of RWH, a foreign context and a durable open. */
static const char chain[] =
    "\x38\0\0\0\x10\0\x04\0\0\0\x18\0\x20\0\0\0RqLs\0\0\0\0"
    "\0\x01\x02\x03\x04\x05\x06\x07\x08\x09\x0a\x0b\x0c\x0d\x0e\x0f\x07\0\0\0\0\0\0\0\0\0\0\0\0\0\0\0"
    "\x18\0\0\0\x10\0\x04\0\xff\xff\0\0\0\0\0\0MxAc\0\0\0\0"
    "\0\0\0\0\x10\0\x04\0\0\0\x18\0\x10\0\0\0DHnQ\0\0\0\0\0\0\0\0\0\0\0\0\0\0\0\0\0\0\0\0";

static uint64_t read_many(uint32_t count) {
    uint8_t text[120];
    uint64_t sum = 0;
    struct smblease_create_ask ask = {0};
    memcpy(text, chain, sizeof text);
    for (uint32_t turn = 0; turn < count; turn++) {
        text[24] = (uint8_t)turn;
        if (smblease_read_create_ask(text, sizeof text, &ask).kind == SMBLEASE_NO_FAULT && ask.has_lease) sum += ask.key[0];
    }
    return sum;
}

/* The ask of 96 bytes that is written each time. */
static struct smblease_create_ask same_ask(uint32_t turn) {
    struct smblease_create_ask ask = {.state = 3, .has_lease = 1, .durable = 1};
    memset(ask.key, (uint8_t)turn, sizeof ask.key);
    return ask;
}

/* Asks for other contexts from turn to turn, of none to 136 bytes. */
static struct smblease_create_ask other_ask(uint32_t turn) {
    struct smblease_create_ask ask = {.file_id = turn, .state = turn, .has_lease = turn % 4 != 0, .durable = turn % 3 == 0, .has_reconnect = turn % 8 == 3};
    memset(ask.key, (uint8_t)turn, sizeof ask.key);
    return ask;
}

static uint64_t write_many(uint32_t count, struct smblease_create_ask (*ask_at)(uint32_t)) {
    uint8_t room[SMBLEASE_CREATE_ASK_MOST] = {0};
    uint64_t sum = 0;
    for (uint32_t turn = 0; turn < count; turn++) {
        struct smblease_create_ask ask = ask_at(turn);
        if (smblease_write_create_ask(&ask, room, sizeof room) > 30) sum += room[30];
    }
    return sum;
}

int main(int argc, char **argv) {
    if (argc != 4) return 2;
    uint32_t count = (uint32_t)strtoul(argv[3], NULL, 10);
    uint64_t sum = strcmp(argv[2], "read") == 0    ? read_many(count)
                   : strcmp(argv[2], "write") == 0 ? write_many(count, same_ask)
                                                   : write_many(count, other_ask);
    printf("%llu\n", (unsigned long long)sum);
    return 0;
}
