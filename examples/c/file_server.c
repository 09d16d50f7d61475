/* The core of a file server over a manager of leases: files in a folder, requests of clients, timers. It plays a script, and
   prints each decision of the manager, what was read, and whether the files hold in the end what the script says.
     cc file_server.c $(pkg-config --cflags --libs smblease) && ./a.out FOLDER SCRIPT
   A server has the requests from sockets and the timers from a clock. Here both are lines of the script (`struct step`). */
#define _XOPEN_SOURCE 700
#define _FILE_OFFSET_BITS 64
#include <fcntl.h>
#include <inttypes.h>
#include <smblease_manager.h>
#include <stdio.h>
#include <stdlib.h>
#include <string.h>
#include <unistd.h>
enum { MOST = 64, NAME = 32, TEXT = 256, LINE = 512, WRONG = 1, UNREADABLE = 2, LOST = 3, FAILED = 4 };
enum kind { NOTHING, OPEN, READ, WRITE, TRUNCATE, CLOSE };
/* What is to be done when the request under a tag goes on. */
struct request { enum kind kind; uint64_t client, tag, file, file_id, offset, length; char text[TEXT]; };
/* What stands behind a FileId: a descriptor of its own, which is closed when the open is gone. */
struct opened { uint64_t file_id, file; int descriptor, is_timed; };
static char names[MOST][NAME]; /* a file's number is its place here, from 1 */
static struct request waiting[MOST];
static struct opened opens[MOST];
static struct smblease_manager manager;
static int folder = -1, line_number, wrong;
static FILE *script;

/* ---- endings ---- */

static void let_go(struct opened *one) {
    if (one->file_id) close(one->descriptor);
    *one = (struct opened){0};
}

static void end(int status, const char *why) {
    for (size_t k = 0; k < MOST; k++) let_go(&opens[k]);
    smblease_manager_free(&manager);
    if (script) fclose(script);
    if (folder >= 0) close(folder);
    if (why) fprintf(stderr, "file_server: line %d: %s\n", line_number, why);
    exit(status);
}

/* After a lost manager a server cuts all connections, lets go of all that is open, and makes a new one. */
static void need(uint32_t outcome) {
    if (outcome == SMBLEASE_LOST) end(LOST, "the manager is lost: memory ran out");
    if (outcome != SMBLEASE_DONE) end(FAILED, "there is no memory, or a number stands for nothing");
}

static void need_disk(int is_done) {
    if (!is_done) end(FAILED, "the file can't be opened, read or written");
}

/* ---- tables ---- */

static struct opened *opened_as(uint64_t file_id) {
    for (size_t k = 0; k < MOST; k++)
        if (opens[k].file_id == file_id) return &opens[k];
    if (file_id == 0) end(UNREADABLE, "too many opens for this example");
    return NULL;
}

static struct request *asked_under(uint64_t client, uint64_t tag) {
    for (size_t k = 0; k < MOST; k++)
        if (waiting[k].kind != NOTHING && waiting[k].client == client && waiting[k].tag == tag) return &waiting[k];
    return NULL;
}

/* Keeps a request under its tag, which no request has that waits. */
static struct request *keep(struct request one) {
    size_t free = MOST;
    for (size_t k = 0; k < MOST; k++) {
        if (waiting[k].kind == NOTHING) free = k;
        else if (waiting[k].tag == one.tag) end(UNREADABLE, "a request waits under the tag");
    }
    if (free == MOST) end(UNREADABLE, "too many requests for this example");
    waiting[free] = one;
    return &waiting[free];
}

/* Names are plain ones: none leads out of the folder. */
static uint64_t file_named(const char *name) {
    size_t length = strspn(name, "abcdefghijklmnopqrstuvwxyz0123456789_-");
    if (length == 0 || length >= NAME || name[length]) end(UNREADABLE, "a name is of lowercase letters, digits, _ and -");
    for (size_t k = 0; k < MOST; k++) {
        if (!names[k][0]) memcpy(names[k], name, length + 1);
        if (strcmp(names[k], name) == 0) return k + 1;
    }
    end(UNREADABLE, "too many files for this example");
    return 0;
}

static int descriptor_of(uint64_t file) {
    int made = openat(folder, names[file - 1], O_RDWR | O_CREAT | O_NOFOLLOW, 0600);
    need_disk(made >= 0);
    return made;
}

/* ---- what is done with the files ---- */

static void put(int descriptor, const char *text, uint64_t offset) {
    for (size_t done = 0; text[done];) {
        ssize_t more = pwrite(descriptor, text + done, strlen(text + done), (off_t)(offset + done));
        need_disk(more > 0);
        done += (size_t)more;
    }
}

/* As many of `length` bytes as the file has there, with a zero byte. */
static size_t get(int descriptor, char *text, size_t length, uint64_t offset) {
    size_t done = 0;
    for (ssize_t more = 1; more > 0 && done < length; done += (size_t)more) {
        more = pread(descriptor, text + done, length - done, (off_t)(offset + done));
        need_disk(more >= 0);
    }
    text[done] = 0;
    return done;
}

/* What the file is to hold in the end: how many bytes, and which from an offset on. */
static void compare(const struct request *wanted) {
    char has[TEXT];
    int descriptor = descriptor_of(wanted->file);
    off_t size = lseek(descriptor, 0, SEEK_END);
    get(descriptor, has, strlen(wanted->text), wanted->offset);
    int is_right = size == (off_t)wanted->length && strcmp(has, wanted->text) == 0;
    printf("%s %s\n", is_right ? "holds" : "wrong", names[wanted->file - 1]);
    wrong += !is_right;
    close(descriptor);
}

/* A read, a write or a truncation takes effect here, at its place in the order of the decisions. */
static void go_on(const struct request *one) {
    int descriptor = opened_as(one->file_id)->descriptor;
    char text[TEXT];
    if (one->kind == READ) {
        get(descriptor, text, one->length, one->offset);
        printf("  read %s\n", text);
    } else if (one->kind == WRITE)
        put(descriptor, one->text, one->offset);
    else
        need_disk(ftruncate(descriptor, (off_t)one->length) == 0);
}

/* ---- decisions ---- */

static const char *state_word(uint32_t state) {
    static const char *const words[] = {"none", "R", "H", "RH", "W", "RW", "WH", "RWH"};
    return words[state & 7];
}

static void show(const struct smblease_manager_decision *it) {
    static const char *const kinds[] = {"", "opened", "goes-on", "closed", "refused", "waits", "withdrawn", "breaks",
                                        "acknowledged", "not-acknowledged", "ended", "left-behind"};
    printf("%s", kinds[it->kind]);
    if (it->client) printf(" client %" PRIu64, it->client);
    if (it->tag) printf(" tag %" PRIu64, it->tag);
    if (it->file_id) printf(" id %" PRIu64, it->file_id);
    if (it->key[0]) printf(" key %c", it->key[0]);
    if (it->kind == SMBLEASE_DECISION_BREAKS) printf(" %s to %s", state_word(it->current_state), state_word(it->new_state));
    if (it->has_lease || it->kind == SMBLEASE_DECISION_ACKNOWLEDGED) printf(" %s", state_word(it->state));
    if (it->status) printf(" %08" PRIx32, it->status);
    if (it->number) printf(" timer %" PRIu64, it->number);
    puts(it->durable ? " durable" : "");
}

/* A create is answered: there is a new open, or one that was left behind is its client's again. */
static void answer_create(uint64_t file_id, const struct request *one) {
    struct opened *has = opened_as(file_id);
    if (!has) {
        has = opened_as(0);
        *has = (struct opened){file_id, one->file, descriptor_of(one->file), 0};
    }
    has->is_timed = 0;
}

/* A server with a clock starts one of so many seconds here (3.3.6.2). */
static void start_timer(struct opened *one) {
    one->is_timed = 1;
    printf("  timer of id %" PRIu64 "\n", one->file_id);
}

static void carry_out(const struct smblease_manager_decision *it) {
    struct request *one = asked_under(it->client, it->tag);
    show(it);
    switch (it->kind) {
    case SMBLEASE_DECISION_OPENED: answer_create(it->file_id, one); break;
    case SMBLEASE_DECISION_GOES_ON: go_on(one); break;
    case SMBLEASE_DECISION_CLOSED: let_go(opened_as(one->file_id)); break;
    case SMBLEASE_DECISION_ENDED: let_go(opened_as(it->file_id)); break;
    case SMBLEASE_DECISION_LEFT_BEHIND: start_timer(opened_as(it->file_id)); break;
    default: break; /* the others are answers, and breaks, whose timers a server with a clock starts by their numbers */
    }
    if (one && it->kind != SMBLEASE_DECISION_WAITS) one->kind = NOTHING;
}

/* Each decision takes effect before the next one. */
static void after(uint32_t outcome) {
    struct smblease_manager_decision decision = {0};
    need(outcome);
    for (size_t k = 0; k < smblease_manager_decision_count(&manager); k++) {
        need(smblease_manager_decision_at(&manager, k, &decision));
        carry_out(&decision);
    }
}

/* ---- the script ---- */

struct step { char word[16], parts[8][TEXT]; int count; };

static uint64_t number(const struct step *step, int place) {
    char *rest = NULL;
    uint64_t found = strtoull(step->parts[place], &rest, 10);
    if (place >= step->count || rest == step->parts[place] || *rest) end(UNREADABLE, "a number is missing");
    return found;
}

static uint32_t bits(const char *letters) {
    return (strchr(letters, 'R') ? 1u : 0) | (strchr(letters, 'H') ? 2u : 0) | (strchr(letters, 'W') ? 4u : 0);
}

static struct smblease_key key_of(const struct step *step, int place) {
    struct smblease_key key = {{0}};
    key.bytes[0] = (uint8_t)step->parts[place][0];
    return key;
}

/* open CLIENT TAG NAME ACCESS SHARE [KEY STATE [durable | again FILEID]] */
static void open_file(const struct step *step) {
    struct request one = {OPEN, number(step, 0), number(step, 1), file_named(step->parts[2]), 0, 0, 0, ""};
    struct smblease_create_ask ask = {.key = {0}};
    memcpy(ask.key, key_of(step, 5).bytes, sizeof ask.key);
    ask.has_lease = step->count > 6;
    ask.state = bits(step->parts[6]);
    ask.durable = strcmp(step->parts[7], "durable") == 0;
    if (step->parts[7][0] >= '1' && step->parts[7][0] <= '9') {
        ask.has_reconnect = 1;
        ask.file_id = number(step, 7);
    }
    keep(one);
    after(smblease_manager_create(&manager, one.client, one.tag, one.file, (uint8_t)number(step, 3), (uint8_t)number(step, 4),
                                  &ask));
}

/* read CLIENT TAG FILEID OFFSET LENGTH, write CLIENT TAG FILEID OFFSET TEXT, truncate CLIENT TAG FILEID LENGTH, close CLIENT TAG
   FILEID. A truncation is asked as a write, which has all others give up all that they cache. */
static void use_open(const struct step *step) {
    struct request one = {CLOSE, number(step, 0), number(step, 1), 0, number(step, 2), 0, 0, ""};
    const struct opened *has = opened_as(one.file_id);
    int is_write = step->word[0] == 'w';
    one.file = has ? has->file : 0;
    if (step->word[0] != 'c') {
        one.kind = is_write ? WRITE : step->word[0] == 'r' ? READ : TRUNCATE;
        one.offset = one.kind == TRUNCATE ? 0 : number(step, 3);
        one.length = is_write ? strlen(step->parts[4]) : number(step, one.kind == READ ? 4 : 3);
        if (is_write) memcpy(one.text, step->parts[4], TEXT);
        if (one.kind == READ && one.length >= TEXT) end(UNREADABLE, "that is too much for this example");
    }
    uint8_t fits = one.length <= INT64_MAX && one.offset <= INT64_MAX - one.length;
    keep(one);
    if (one.kind == READ) after(smblease_manager_read(&manager, one.client, one.tag, one.file_id));
    else if (one.kind == CLOSE) after(smblease_manager_close(&manager, one.client, one.tag, one.file_id));
    else after(smblease_manager_write(&manager, one.client, one.tag, one.file_id, fits));
}

/* ack CLIENT KEY STATE, or ack CLIENT where it can't be read */
static void acknowledge(const struct step *step) {
    struct smblease_acknowledgment given = {.state = bits(step->parts[2])};
    memcpy(given.key, key_of(step, 1).bytes, sizeof given.key);
    after(step->count == 1 ? smblease_manager_acknowledge_malformed(&manager, number(step, 0))
                           : smblease_manager_acknowledge(&manager, number(step, 0), &given));
}

/* cancel CLIENT TAG */
static void cancel(const struct step *step) {
    const struct request *one = asked_under(number(step, 0), number(step, 1));
    if (one) after(smblease_manager_withdraw(&manager, one->client, one->tag, one->file));
}

/* join CLIENT */
static void join(const struct step *step) { after(smblease_manager_join(&manager, number(step, 0))); }

/* cut CLIENT: nobody waits for its answers any longer. */
static void cut(const struct step *step) {
    uint64_t client = number(step, 0);
    after(smblease_manager_cut(&manager, client));
    for (size_t k = 0; k < MOST; k++)
        if (waiting[k].client == client) waiting[k].kind = NOTHING;
}

/* break-timer NUMBER: where the break has ended, the manager decides nothing. */
static void end_break(const struct step *step) { after(smblease_manager_run_out(&manager, number(step, 0))); }

/* open-timer FILEID */
static void end_open(const struct step *step) {
    const struct opened *has = number(step, 0) ? opened_as(number(step, 0)) : NULL;
    if (has && has->is_timed) after(smblease_manager_scavenge(&manager, has->file_id));
    else puts("  no such timer");
}

/* file NAME TEXT: what the file holds in the beginning */
static void begin_file(const struct step *step) {
    int descriptor = descriptor_of(file_named(step->parts[0]));
    need_disk(ftruncate(descriptor, 0) == 0);
    put(descriptor, step->parts[1], 0);
    close(descriptor);
}

/* holds NAME LENGTH OFFSET TEXT: what it holds in the end */
static void look(const struct step *step) {
    struct request wanted = {NOTHING, 0, 0, file_named(step->parts[0]), 0, number(step, 2), number(step, 1), ""};
    memcpy(wanted.text, step->parts[3], TEXT - 1);
    compare(&wanted);
}

static void happen(const struct step *step) {
    static const struct { const char *word; void (*does)(const struct step *); int least; } words[] = {
        {"file", begin_file, 1}, {"holds", look, 3}, {"join", join, 1}, {"cut", cut, 1}, {"open", open_file, 5},
        {"read", use_open, 5}, {"write", use_open, 5}, {"truncate", use_open, 4}, {"close", use_open, 3}, {"ack", acknowledge, 1},
        {"cancel", cancel, 2}, {"break-timer", end_break, 1}, {"open-timer", end_open, 1}};
    for (size_t k = 0; k < sizeof words / sizeof words[0]; k++)
        if (strcmp(step->word, words[k].word) == 0 && step->count >= words[k].least) {
            words[k].does(step);
            return;
        }
    end(UNREADABLE, "no such step");
}

static void play(char *line) {
    static struct step step;
    step = (struct step){.count = 0};
    char *rest = NULL, *word = strtok_r(line, " \n", &rest);
    if (!word || word[0] == '#') return;
    snprintf(step.word, sizeof step.word, "%s", word);
    while ((word = strtok_r(NULL, " \n", &rest)) != NULL) {
        if (step.count == 8 || strlen(word) >= TEXT) end(UNREADABLE, "too many words, or a word that is too long");
        memcpy(step.parts[step.count++], word, strlen(word));
    }
    printf("- %s", step.word);
    for (int k = 0; k < step.count; k++) printf(" %s", step.parts[k]);
    puts("");
    happen(&step);
}

int main(int argc, char **argv) {
    char line[LINE];
    if (argc == 3) {
        folder = open(argv[1], O_RDONLY | O_DIRECTORY);
        script = fopen(argv[2], "r");
    }
    if (!script || folder < 0) end(UNREADABLE, "usage: file_server FOLDER SCRIPT (a folder and a script that can be read)");
    need(smblease_manager_new(&manager, SMBLEASE_BY_CLIENT, SMBLEASE_AS_FREE, UINT64_MAX));
    while (fgets(line, sizeof line, script)) {
        line_number++;
        play(line);
    }
    end(wrong ? WRONG : 0, NULL);
}
