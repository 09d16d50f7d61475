/* Builds 2,000 chains of up to eight create contexts by smblease_append_context, each in memory of its exact size, and reads
   them back. Before each context is appended the same is tried with a byte less of room, which has to leave the text as it
   was. Status 1 where something else happens. */
#include <smblease.h>
#include <stdio.h>
#include <stdlib.h>
#include <string.h>

enum { CHAINS = 2000, MOST_CONTEXTS = 8, LONGEST_NAME = 12, LONGEST_DATA = 60 };

struct part {
    uint8_t name[LONGEST_NAME];
    size_t name_length;
    uint8_t data[LONGEST_DATA];
    size_t data_length;
};

static int wrong_ones;

static void check(const char *what, int is_right) {
    if (!is_right) {
        wrong_ones++;
        printf("wrong: %s\n", what);
    }
}

static size_t below(size_t limit) {
    static uint32_t state = 1;
    state = state * 1664525u + 1013904223u;
    return (state >> 16) % limit;
}

static void draw(struct part *part) {
    part->name_length = below(LONGEST_NAME + 1);
    part->data_length = below(4) ? below(LONGEST_DATA + 1) : 0;
    for (size_t at = 0; at < part->name_length; at++) part->name[at] = (uint8_t)below(256);
    for (size_t at = 0; at < part->data_length; at++) part->data[at] = (uint8_t)below(256);
}

/* Multiples of 8 go before the context and between its name and its data (MS-SMB2 2.2.13.2). */
static size_t length_with(size_t length, const struct part *part) {
    size_t start = (length + 7) / 8 * 8;
    return start + 16 + (part->name_length + 7) / 8 * 8 + part->data_length;
}

static uint8_t *appended(uint8_t *text, size_t length, const struct part *part) {
    size_t wanted = length_with(length, part);
    uint8_t *room = realloc(text, wanted), *before = malloc(wanted);
    if (room == NULL || before == NULL) exit(2);
    memset(room + length, 0xee, wanted - length);
    memcpy(before, room, wanted);
    check("a room that is too short", smblease_append_context(room, wanted - 1, length, part->name, part->name_length, part->data,
                                                              part->data_length) == wanted);
    check("nothing written", memcmp(before, room, wanted) == 0);
    check("a room that is long enough", smblease_append_context(room, wanted, length, part->name, part->name_length, part->data,
                                                                part->data_length) == wanted);
    free(before);
    return room;
}

static void read_back(const uint8_t *text, size_t length, const struct part *parts, size_t count) {
    uint64_t place = 0;
    for (size_t at = 0; at < count; at++) {
        struct smblease_context context = {0, 0, 0, 0, 0};
        check("a context", smblease_read_context(text, length, place, &context).kind == SMBLEASE_NO_FAULT);
        check("its name", context.name_length == parts[at].name_length
                              && memcmp(text + context.name_place, parts[at].name, parts[at].name_length) == 0);
        check("its data", context.data_length == parts[at].data_length
                              && memcmp(text + context.data_place, parts[at].data, parts[at].data_length) == 0);
        check("the data's place", context.data_place % 8 == 0);
        check("the next one", context.next_place % 8 == 0 && (context.next_place == 0) == (at + 1 == count));
        place = context.next_place;
    }
}

static void build(size_t count) {
    struct part parts[MOST_CONTEXTS];
    uint8_t *text = NULL;
    size_t length = 0;
    for (size_t at = 0; at < count; at++) {
        draw(&parts[at]);
        text = appended(text, length, &parts[at]);
        length = length_with(length, &parts[at]);
        read_back(text, length, parts, at + 1);
    }
    free(text);
}

int main(void) {
    uint8_t cut[20] = {24, 0, 0, 0, 16};
    for (int chain = 0; chain < CHAINS; chain++) build(1 + below(MOST_CONTEXTS));
    check("a text with a fault", smblease_append_context(cut, sizeof cut, sizeof cut, (const uint8_t *)"MxAc", 4, NULL, 0) == 0);
    check("it is as it was", cut[0] == 24 && cut[19] == 0);
    return wrong_ones != 0;
}
