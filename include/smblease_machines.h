/*
 * The client machine and the server machine of SMB 2.1 leases and durable opens (MS-SMB2 3.2, 3.3) as
 * handles: state machines with no sockets, threads or clocks. What each function does is proved, for
 * all arguments: it is what the rules of docs/MODEL.md say of the same call.
 *
 * Limits: a machine has at most 255 files, a server at most 255 clients, a file at most 1,048,576 bytes.
 * Files and clients are numbers from 1; 0 names none. Reads are of whole files. The machines are for
 * test harnesses, for small shares, and as a reference next to a server under test.
 *
 * A handle is a struct of one pointer. It starts as {0}, and holds nothing then. Never copy a handle.
 * smblease_.._free frees what no other function freed.
 *
 * A call of a machine replaces what its last call gave out: the answer, the requests and the notes of a
 * client; the list of outs of a server. Read them by index, in order, after each call.
 *
 * Memory: calls allocate with the program's malloc and realloc. Where memory runs out within a call of a
 * machine, the machine is lost: it is freed with all that it knew, the handle is {0}, and the call returns
 * SMBLEASE_LOST. A lost client has lost its buffered writes; a lost server has lost the contents of its
 * files, its opens and its leases. Bytes that a call copies are copied before it begins: where there is no
 * memory for that, the call returns SMBLEASE_NO_MEMORY, and nothing changed. Each function below says
 * whether it allocates.
 *
 * What a caller has to keep to:
 *
 * - A handle is {0} or what a function left there. One call at a time uses it. Handles share nothing, so
 *   threads may use different handles at once. A handle may go to another thread where a lock, or the start
 *   or the end of a thread, orders the calls.
 * - A pointer is to as many bytes as the length after it says, or to one struct, aligned as C aligns it,
 *   that has been given some value before (as by = {0}), also where the call writes it. A room of bytes
 *   has been given some value too: fresh memory of malloc is to be set first. A pointer is null only
 *   where the length after it is 0. No length is above PTRDIFF_MAX.
 * - What one call writes overlaps nothing else that it is given.
 * - malloc, realloc and free come from one allocator, which aligns to 16 bytes. No function is called
 *   from a signal handler, or from the forked child of a process with threads.
 *
 * Any number may stand in a field and any bytes may be given. A field of one byte says yes or no: 0 is no,
 * and any other number yes; where a call writes it, it is 0 or 1. What has no meaning for the kind of an
 * answer, a request, a note or an out is 0. `reserved` is room for later versions: leave 0 there. A call
 * that writes the struct writes 0 there, and this version doesn't look at it.
 */
#ifndef SMBLEASE_MACHINES_H
#define SMBLEASE_MACHINES_H

#include <stddef.h>
#include <stdint.h>

#ifdef __cplusplus
extern "C" {
#endif

/* What became of a call. */
enum smblease_outcome {
    /* it was done */
    SMBLEASE_DONE = 0,
    /* there was no memory before the call began, and nothing changed */
    SMBLEASE_NO_MEMORY = 1,
    /* memory ran out within the call: the machine is gone, and the handle is {0} */
    SMBLEASE_LOST = 2,
    /* the handle holds no machine */
    SMBLEASE_NONE = 3,
    /* a number stands for nothing, and nothing changed */
    SMBLEASE_NO_SUCH = 4,
    /* bytes aren't what they should be, and nothing changed */
    SMBLEASE_DAMAGED = 5,
    /* what was given would break a law that holds of every machine, and nothing changed */
    SMBLEASE_UNLAWFUL = 6
};

/* An access is 1 for reading, plus 2 for writing; a share (ShareAccess, 2.2.13) is what other opens may
   do, 0 for nothing, in the same numbers. */
enum smblease_uses { SMBLEASE_NO_USE = 0, SMBLEASE_READS = 1, SMBLEASE_WRITES = 2 };

/* A ClientGuid (2.2.3), its bytes in the order of the wire. */
struct smblease_guid { uint8_t bytes[16]; };

/* A lease key (2.2.13.2.8), and one that may be missing. */
struct smblease_key { uint8_t bytes[16]; };
struct smblease_maybe_key { uint8_t bytes[16]; uint8_t has_key; };

/* A lease break notification (2.2.23.2), and an acknowledgment or its response (2.2.24.2, 2.2.25.2),
   without the SMB2 header. */
struct smblease_break_message { uint8_t bytes[44]; };
struct smblease_ack_message { uint8_t bytes[36]; };

/* ---- The client machine ---- */

struct smblease_client { void *state; };

/* How an application opens a file. */
struct smblease_open_terms {
    /* the lease's state that is wanted: the bits of LeaseState (2.2.13.2.8), 1 reads, 2 handles, 4 writes */
    uint32_t want;
    uint8_t file;
    uint8_t access;
    uint8_t share;
    /* the open is to outlive its connection (2.2.13.2.3) */
    uint8_t durable;
    uint8_t reserved[24];
};

enum smblease_answer_kind {
    SMBLEASE_ANSWER_DONE = 1,
    /* the answer comes with a message of the server */
    SMBLEASE_ANSWER_WAITING = 2,
    /* the bytes of the file */
    SMBLEASE_ANSWER_BYTES = 3,
    /* refused: nothing changed, and nothing is sent */
    SMBLEASE_ANSWER_REFUSED = 4,
    /* the server refused it, with a status */
    SMBLEASE_ANSWER_FAILED = 5,
    /* there is nothing to be answered */
    SMBLEASE_ANSWER_QUIET = 6
};

enum smblease_refusal {
    /* the client has no such file, or no handle on it */
    SMBLEASE_NOT_OPEN = 1,
    /* an answer of the server has to come first */
    SMBLEASE_BUSY = 2,
    /* another access or share than that of the open; no command is refused so any more */
    SMBLEASE_DIFFERS = 3,
    /* the client isn't connected, or the file's open isn't connected again yet */
    SMBLEASE_OFFLINE = 4,
    /* the write ends past 1,048,576 bytes */
    SMBLEASE_TOO_LONG = 5,
    /* the open's access doesn't allow it */
    SMBLEASE_DENIED = 6,
    /* there is no number or count left for it */
    SMBLEASE_USED_UP = 7
};

/* What the application is answered. */
struct smblease_answer {
    /* how many bytes there are */
    uint64_t length;
    /* one of smblease_answer_kind */
    uint32_t kind;
    /* one of smblease_refusal */
    uint32_t refusal;
    /* the NTSTATUS of the server's reply, as it came */
    uint32_t status;
    /* the bytes came from the cache */
    uint8_t cached;
    uint8_t reserved[27];
};

enum smblease_request_kind {
    /* file, access and share; the bytes are the create contexts (2.2.13.2) */
    SMBLEASE_CREATE = 1,
    /* of the whole file of file_id */
    SMBLEASE_READ = 2,
    /* of these bytes from offset on, to the file of file_id; the client numbers its writes from 1 */
    SMBLEASE_WRITE = 3,
    SMBLEASE_CLOSE = 4,
    /* the bytes are the 36 of 2.2.24.2 */
    SMBLEASE_ACKNOWLEDGE = 5
};

/* A request that goes to the server. */
struct smblease_client_request {
    uint64_t file_id;
    uint64_t number;
    uint64_t length;
    uint32_t kind;
    uint32_t offset;
    uint8_t file;
    uint8_t access;
    uint8_t share;
    uint8_t reserved[29];
};

enum smblease_note_kind {
    /* what became of the write of this number */
    SMBLEASE_SETTLED = 1,
    /* the write of this number was taken, of these bytes from offset on: buffered, or sent */
    SMBLEASE_WROTE = 2,
    /* the client's belief of the file's lease became this state */
    SMBLEASE_BELIEVES = 3,
    /* the file was read from the cache as these bytes */
    SMBLEASE_CACHED_READ = 4
};

enum smblease_settlement {
    SMBLEASE_WRITE_DONE = 1,
    /* the server refused it, or it was buffered and can't be sent any more */
    SMBLEASE_WRITE_FAILED = 2,
    /* its answer was lost with the connection */
    SMBLEASE_WRITE_UNKNOWN = 3,
    /* it was kept over a lost connection and is given up; it may have been sent before, and even done */
    SMBLEASE_WRITE_LOST = 4
};

/* What a client notes for its program. */
struct smblease_note {
    uint64_t number;
    uint64_t length;
    uint32_t kind;
    /* one of smblease_settlement */
    uint32_t outcome;
    uint32_t offset;
    /* the bits of LeaseState */
    uint32_t state;
    uint8_t file;
    uint8_t buffered;
    uint8_t reserved[30];
};

/* Makes a client with files from 1 to `files` that was never connected. What the handle held is freed.
   Allocates. DONE or NO_MEMORY. */
uint32_t smblease_client_new(struct smblease_client *client, const struct smblease_guid *guid, uint8_t files);
/* Frees the machine; the handle is {0} then. Allocates nothing. */
void smblease_client_free(struct smblease_client *client);

/* The client connects (3.2.4.4); it notices that its connection is lost (3.2.7.1). Allocate. DONE, LOST
   or NONE. */
uint32_t smblease_client_connect(struct smblease_client *client);
uint32_t smblease_client_notice(struct smblease_client *client);

/* Commands of the application. Where the outcome is DONE, smblease_client_answer has the answer. They
   allocate; a command that is refused never loses the machine. DONE, LOST or NONE; of open also NO_SUCH,
   where the access or the share stands for nothing; of write also NO_MEMORY, for the copy of its bytes. */
uint32_t smblease_client_open(struct smblease_client *client, const struct smblease_open_terms *terms);
uint32_t smblease_client_close(struct smblease_client *client, uint8_t file);
uint32_t smblease_client_read(struct smblease_client *client, uint8_t file);
uint32_t smblease_client_write(struct smblease_client *client, uint8_t file, uint32_t offset,
                               const uint8_t *bytes, size_t length);
uint32_t smblease_client_flush(struct smblease_client *client, uint8_t file);

/* Messages of the server (3.2.5). What fits no open, and contexts or notifications that can't be read, are
   passed over. A status that the machines have no name for is to them that of a request that failed,
   STATUS_UNSUCCESSFUL; an answer that fails by it has it as it came. They allocate; DONE, LOST or NONE; of created and read_done also NO_MEMORY, for the
   copy of their bytes. closed, close_failed, ack_done and ack_failed never lose the machine. */
uint32_t smblease_client_take_created(struct smblease_client *client, uint8_t file, uint64_t file_id,
                                      const uint8_t *contexts, size_t length);
uint32_t smblease_client_take_create_failed(struct smblease_client *client, uint8_t file, uint32_t status);
uint32_t smblease_client_take_read_done(struct smblease_client *client, uint64_t file_id,
                                        const uint8_t *bytes, size_t length);
uint32_t smblease_client_take_read_failed(struct smblease_client *client, uint64_t file_id, uint32_t status);
uint32_t smblease_client_take_write_done(struct smblease_client *client, uint64_t file_id, uint64_t number);
uint32_t smblease_client_take_write_failed(struct smblease_client *client, uint64_t file_id, uint64_t number,
                                           uint32_t status);
uint32_t smblease_client_take_closed(struct smblease_client *client, uint64_t file_id);
uint32_t smblease_client_take_close_failed(struct smblease_client *client, uint64_t file_id, uint32_t status);
uint32_t smblease_client_take_break(struct smblease_client *client, const struct smblease_break_message *message);
uint32_t smblease_client_take_ack_done(struct smblease_client *client, const struct smblease_ack_message *message);
uint32_t smblease_client_take_ack_failed(struct smblease_client *client, uint32_t status);

/* What the last call gave out. The bytes are written to the front of the room where they fit, and else
   nothing is written there; the struct's `length` says how many there are. Allocate nothing. DONE or NONE; of
   request_at and note_at also NO_SUCH, where nothing has the index. Unless DONE nothing is written. */
uint32_t smblease_client_answer(struct smblease_client *client, struct smblease_answer *answer,
                                uint8_t *room, size_t room_length);
uint32_t smblease_client_request_at(struct smblease_client *client, size_t index,
                                    struct smblease_client_request *request, uint8_t *room, size_t room_length);
uint32_t smblease_client_note_at(struct smblease_client *client, size_t index, struct smblease_note *note,
                                 uint8_t *room, size_t room_length);
/* How many there are; 0 where there is no machine. Allocate nothing. */
size_t smblease_client_request_count(struct smblease_client *client);
size_t smblease_client_note_count(struct smblease_client *client);

/* What the client believes of the lease of a file: the bits of LeaseState; 0 where it isn't open, or there is
   no machine. Allocates nothing. */
uint32_t smblease_client_belief(struct smblease_client *client, uint8_t file);
/* The lease key under which the client of a ClientGuid opens a file (3.2.4.3.8). Allocates nothing. */
void smblease_client_key(const struct smblease_guid *guid, uint8_t file, struct smblease_key *key);

/* ---- The server machine ---- */

/* Files that a server is to begin with. */
struct smblease_files { void *state; };

struct smblease_server { void *state; };

enum smblease_out_kind {
    /* messages to a client, by the request that they answer; created and read_done have bytes, the
       create contexts (2.2.14.2) and the whole file */
    SMBLEASE_OUT_CREATED = 1,
    SMBLEASE_OUT_CREATE_FAILED = 2,
    SMBLEASE_OUT_READ_DONE = 3,
    SMBLEASE_OUT_READ_FAILED = 4,
    SMBLEASE_OUT_WRITE_DONE = 5,
    SMBLEASE_OUT_WRITE_FAILED = 6,
    SMBLEASE_OUT_CLOSED = 7,
    SMBLEASE_OUT_CLOSE_FAILED = 8,
    /* the break of a lease: the 44 bytes of 2.2.23.2 */
    SMBLEASE_OUT_BREAK = 9,
    /* the answer to an acknowledgment: the 36 bytes of 2.2.25.2 */
    SMBLEASE_OUT_ACK_DONE = 10,
    SMBLEASE_OUT_ACK_FAILED = 11,
    /* the server opened the file for the client */
    SMBLEASE_OUT_OPENED = 12,
    /* the server changed the file by the client's write of this number: these bytes from offset on */
    SMBLEASE_OUT_CHANGED = 13
};

/* What a server gives out. */
struct smblease_server_out {
    uint64_t file_id;
    uint64_t number;
    uint64_t length;
    uint32_t kind;
    /* an NTSTATUS */
    uint32_t status;
    uint32_t offset;
    uint8_t client;
    uint8_t file;
    uint8_t reserved[26];
};

/* Which requests of one client on one file wait for one another: all, or those under one lease key or by
   one FileId (docs/PROFILE.md). */
enum smblease_order { SMBLEASE_BY_CLIENT = 0, SMBLEASE_BY_KEY = 1 };

/* How a lease rises when its client asks for more: as far as is free, or to all of it or not at all. */
enum smblease_rise { SMBLEASE_AS_FREE = 0, SMBLEASE_WHOLE = 1 };

/* Adds a file, with a copy of these bytes; the first has number 1. Allocates. DONE, NO_MEMORY, or NO_SUCH
   where there are more than 1,048,576 bytes or 255 files already. Unless DONE the files are as they were. */
uint32_t smblease_files_add(struct smblease_files *files, const uint8_t *bytes, size_t length);
/* Frees the files; the handle is {0} then. Allocates nothing. */
void smblease_files_free(struct smblease_files *files);

/* Makes a server with these files that no client has joined; the files' handle is {0} then. What the server's
   handle held is freed. Allocates. DONE, or LOST: the files are gone, and the server's handle is as it was. */
uint32_t smblease_server_new(struct smblease_server *server, struct smblease_files *files);
/* The same with other rules than those of docs/PROFILE.md, which are by client and as free: one of
   smblease_order and one of smblease_rise. Allocates. DONE, LOST, or NO_SUCH where a number stands for no
   rule: then nothing changed. */
uint32_t smblease_server_new_with_rules(struct smblease_server *server, struct smblease_files *files, uint32_t order,
                                        uint32_t rise);
/* Frees the server; the handle is {0} then. Allocates nothing. */
void smblease_server_free(struct smblease_server *server);

/* A client connects (3.3.5.1), or its connection is lost (3.3.7.1); the timer of the break of its lease
   (3.3.6.5), or of a durable open (3.3.6.2), runs out. Where that doesn't apply nothing changes, nothing is
   given out and the machine is never lost. Allocate. DONE, LOST or NONE. */
uint32_t smblease_server_join(struct smblease_server *server, uint8_t client);
uint32_t smblease_server_cut(struct smblease_server *server, uint8_t client);
uint32_t smblease_server_expire(struct smblease_server *server, uint8_t client, const struct smblease_key *key);
uint32_t smblease_server_scavenge(struct smblease_server *server, uint64_t file_id);

/* A request of a client comes (3.3.5). Where the client isn't connected nothing changes, nothing is given out
   and the machine is never lost. Allocate. DONE, LOST or NONE; of create also NO_SUCH, where the access or
   the share stands for nothing; of create and write also NO_MEMORY, for the copy of their bytes. */
uint32_t smblease_server_receive_create(struct smblease_server *server, uint8_t client, uint8_t file, uint8_t access,
                                        uint8_t share, const uint8_t *contexts, size_t length);
uint32_t smblease_server_receive_read(struct smblease_server *server, uint8_t client, uint64_t file_id);
uint32_t smblease_server_receive_write(struct smblease_server *server, uint8_t client, uint64_t file_id, uint64_t number,
                                       uint32_t offset, const uint8_t *bytes, size_t length);
uint32_t smblease_server_receive_close(struct smblease_server *server, uint8_t client, uint64_t file_id);
uint32_t smblease_server_receive_ack(struct smblease_server *server, uint8_t client,
                                     const struct smblease_ack_message *message);

/* What the last call gave out, as of a client. Allocate nothing. */
size_t smblease_server_out_count(struct smblease_server *server);
uint32_t smblease_server_out_at(struct smblease_server *server, size_t index, struct smblease_server_out *out,
                                uint8_t *room, size_t room_length);

/* Questions; nothing changes, and the outs stay. Allocate nothing. Where there is no machine, allowed,
   connected, breaking and left_behind return 0. */

/* What may be granted of the state that is wanted: the bits of LeaseState. */
uint32_t smblease_server_allowed(struct smblease_server *server, uint8_t client, const struct smblease_maybe_key *key,
                                 uint8_t file, uint32_t want);
/* 1 where it is so, and else 0: the client is connected; a break of its lease waits for an acknowledgment; an
   open of this FileId waits for its client to connect again. */
uint32_t smblease_server_connected(struct smblease_server *server, uint8_t client);
uint32_t smblease_server_breaking(struct smblease_server *server, uint8_t client, const struct smblease_key *key);
uint32_t smblease_server_left_behind(struct smblease_server *server, uint64_t file_id);
/* The client's oldest durable open on the file that waits for it. DONE, NONE, or NO_SUCH where there is none;
   unless DONE nothing is written. */
uint32_t smblease_server_kept(struct smblease_server *server, uint8_t client, uint8_t file, uint64_t *file_id);
/* The bytes of a file, as those of an out; `count` says how many there are. DONE, NONE, or NO_SUCH where the
   server has no such file; unless DONE nothing is written. */
uint32_t smblease_server_content(struct smblease_server *server, uint8_t file, uint64_t *count,
                                 uint8_t *room, size_t room_length);

#ifdef __cplusplus
}
#endif

#endif
