/*
 * libsmblease reads and writes the messages of SMB 2.1 leases (MS-SMB2), without the SMB2 header: create
 * contexts, and the lease break notification, acknowledgment and response. It also says what is true of
 * states and opens. What each function does is proved, for all bytes and all values; docs/C.md is where to
 * start, docs/FORMATS.md has the layouts, docs/PROOF.md what is trusted. "(profile)" marks a choice of this
 * library where MS-SMB2 leaves room.
 *
 * Leases are those of dialect 2.1, of version 1. A lease context of version 2, as SMB 3 clients send it
 * (RqLs with 52 bytes of data), isn't read: has_lease is 0 then, and has_other_lease is 1. A server that
 * offers SMB 3 and has only this parser would grant no lease: it has to look at has_other_lease and read
 * that context itself (smblease_find_context finds it).
 *
 * What a caller has to keep to:
 *
 * - A pointer is to as many bytes, or structs, as the length after it says, or to one struct. It is null
 *   only where the length after it is 0. No length is above PTRDIFF_MAX, counted in bytes.
 * - A pointer to a struct is aligned as C aligns the struct, to 8 bytes at most: a variable of its type
 *   is, and so is what malloc gives. Bytes may stand anywhere.
 * - Memory that a call may write, room and struct alike, was given some value before, as by `= {0}`,
 *   memset or calloc. Fresh memory of malloc or of a variable without a value must not be handed over:
 *   what is proved speaks of the values that are there.
 * - What one call writes overlaps nothing else that it is given, and no other thread touches it during
 *   the call. Nobody writes what a call reads during the call.
 *
 * Nothing else is asked: any bytes may be read, and any number may stand in a field. No function of this
 * header allocates, waits, or keeps anything between calls, so any thread and any signal handler
 * may call them.
 *
 * Numbers are little-endian in the messages; in the structs they have the machine's byte order.
 */
#ifndef SMBLEASE_H
#define SMBLEASE_H

#include <stdbool.h>
#include <stddef.h>
#include <stdint.h>

#ifdef __cplusplus
extern "C" {
#endif

/* The version of this header. The first number, and the soname with it, changes where a program that was
   linked before could no longer run; the second one where something was added. */
#define SMBLEASE_VERSION_MAJOR 0
#define SMBLEASE_VERSION_MINOR 4
#define SMBLEASE_VERSION_PATCH 0

struct smblease_version_numbers {
    uint32_t major;
    uint32_t minor;
    uint32_t patch;
};

/* Returns the version of the library that is running. */
struct smblease_version_numbers smblease_version(void);

/* Why bytes are refused, by number. */
enum smblease_fault_kind {
    /* nothing was refused */
    SMBLEASE_NO_FAULT = 0,
    /* there are fewer bytes than the fixed part has */
    SMBLEASE_SHORT = 1,
    /* StructureSize is not that of the message */
    SMBLEASE_WRONG_SIZE = 2,
    /* Next leads to no further context */
    SMBLEASE_BAD_NEXT = 3,
    /* the name is not within its context */
    SMBLEASE_BAD_NAME = 4,
    /* the data are not within their context */
    SMBLEASE_BAD_DATA = 5,
    /* the data of a context that is known have another length than its structure */
    SMBLEASE_BAD_LENGTH = 6,
    /* a context that is known has the name of an earlier one */
    SMBLEASE_TWICE = 7
};

/* Whether bytes were refused, and why. */
struct smblease_fault {
    /* where the create context with the fault begins, in bytes from the start of the text; 0 in a break
       message, and where there is no fault */
    uint64_t place;
    /* one of smblease_fault_kind */
    uint32_t kind;
    /* 0 */
    uint32_t reserved;
};

/* The statuses that the profile answers with (MS-ERREF 2.3.1). */
#define SMBLEASE_STATUS_SUCCESS UINT32_C(0x00000000)
#define SMBLEASE_STATUS_UNSUCCESSFUL UINT32_C(0xC0000001)
#define SMBLEASE_STATUS_INVALID_PARAMETER UINT32_C(0xC000000D)
#define SMBLEASE_STATUS_ACCESS_DENIED UINT32_C(0xC0000022)
#define SMBLEASE_STATUS_OBJECT_NAME_NOT_FOUND UINT32_C(0xC0000034)
#define SMBLEASE_STATUS_SHARING_VIOLATION UINT32_C(0xC0000043)
#define SMBLEASE_STATUS_REQUEST_NOT_ACCEPTED UINT32_C(0xC00000D0)

/* Returns the status with which a server answers contexts or an acknowledgment that have a fault of this
   kind: SMBLEASE_STATUS_INVALID_PARAMETER (3.3.5.9, 3.3.5.22.2), and SMBLEASE_STATUS_SUCCESS for
   SMBLEASE_NO_FAULT. */
uint32_t smblease_fault_status(uint32_t kind);

/* Writes the name of a fault of this kind to the front of `room`, as "BadNext", with the zero byte that
   ends a text in C. Returns how many bytes that takes, with the zero byte, SMBLEASE_FAULT_NAME_MOST at
   most; where `length` is less, nothing is written. SMBLEASE_NO_FAULT and any number that is no kind
   have no name: it returns 0, and nothing is written. */
#define SMBLEASE_FAULT_NAME_MOST 10
size_t smblease_fault_name(uint32_t kind, char *room, size_t length);

/* The bits of a lease state (2.2.13.2.8). Others are dropped where bytes are read, and passed over in
   structs. */
#define SMBLEASE_READ_CACHING UINT32_C(1)
#define SMBLEASE_HANDLE_CACHING UINT32_C(2)
#define SMBLEASE_WRITE_CACHING UINT32_C(4)

/* In the structs below a field of one byte says yes or no: 0 is no, and any other number yes. Where a
   call writes it, it is 0 or 1. `reserved` is room for later versions: leave 0 there. A call that writes
   the struct writes 0 there, and this version doesn't look at it. */

/* What the create contexts of a CREATE request ask for (2.2.13.2). */
struct smblease_create_ask {
    /* the lease key, where has_lease is set; a call that writes the struct writes 0 where it isn't */
    uint8_t key[16];
    /* the durable open that is to be connected again, where has_reconnect is set; else 0, as above */
    uint64_t file_id;
    /* the state that is wanted, where has_lease is set; else 0, as above */
    uint32_t state;
    /* RqLs: a lease is asked for (2.2.13.2.8) */
    uint8_t has_lease;
    /* DHnQ: a durable open is asked for (2.2.13.2.3) */
    uint8_t durable;
    /* DHnC: a durable open is to be connected again (2.2.13.2.4) */
    uint8_t has_reconnect;
    /* RqLs with 52 bytes of data, a lease context of version 2 (2.2.13.2.10): there is one, and it was
       passed over. smblease_write_create_ask doesn't look at this field. */
    uint8_t has_other_lease;
    uint64_t reserved[6];
};

/* What the create contexts of a CREATE response grant (2.2.14.2). */
struct smblease_create_answer {
    /* the lease key, where has_lease is set; a call that writes the struct writes 0 where it isn't */
    uint8_t key[16];
    /* the state that the lease has, where has_lease is set; else 0, as above */
    uint32_t state;
    /* RqLs: a lease is granted (2.2.14.2.10) */
    uint8_t has_lease;
    /* SMB2_LEASE_FLAG_BREAK_IN_PROGRESS, where has_lease is set; else 0, as above */
    uint8_t breaking;
    /* DHnQ: the open is durable (2.2.14.2.3) */
    uint8_t durable;
    /* as in smblease_create_ask (2.2.14.2.11) */
    uint8_t has_other_lease;
    uint64_t reserved[6];
};

/* A create context, by the places of its parts in the text that it was read from. */
struct smblease_context {
    /* where the name begins, in bytes from the start of the text, and how long it is; both are 0 where
       there is no name */
    uint64_t name_place;
    uint64_t name_length;
    /* the same of the data */
    uint64_t data_place;
    uint64_t data_length;
    /* where the next context begins; 0 where this one is the last */
    uint64_t next_place;
};

/* A lease break notification (2.2.23.2), by which the server lowers a client's lease. */
struct smblease_notification {
    uint8_t key[16];
    /* CurrentLeaseState: the state that the server breaks */
    uint32_t current_state;
    /* NewLeaseState: the state that it is broken to */
    uint32_t new_state;
    /* SMB2_NOTIFY_BREAK_LEASE_FLAG_ACK_REQUIRED: the client has to acknowledge the break */
    uint8_t ack_required;
    uint8_t reserved[15];
};

/* A lease break acknowledgment (2.2.24.2), by which a client gives up what a break takes. */
struct smblease_acknowledgment {
    uint8_t key[16];
    /* LeaseState: the state that the client keeps */
    uint32_t state;
    uint8_t reserved[12];
};

/* A lease break response (2.2.25.2), by which the server accepts an acknowledgment. */
struct smblease_response {
    uint8_t key[16];
    /* LeaseState: the state that the lease now has */
    uint32_t state;
    uint8_t reserved[12];
};

/* How many bytes a message takes, and create contexts at most, as they are written here. */
#define SMBLEASE_NOTIFICATION_SIZE 44
#define SMBLEASE_ACKNOWLEDGMENT_SIZE 36
#define SMBLEASE_RESPONSE_SIZE 36
#define SMBLEASE_CREATE_ASK_MOST 136
#define SMBLEASE_CREATE_ANSWER_MOST 88

/*
 * Readers. They read the bytes at `text` or `bytes`, as many as the length says, and return their fault.
 * Where its kind is SMBLEASE_NO_FAULT, *out holds what was read, in each of its fields; else *out is as it
 * was.
 */

/* Reads the create contexts of a CREATE request (2.2.13.2), and returns the first fault in the order of
   the text. A text of no bytes asks for nothing; contexts that aren't known are passed over, also a lease
   context of version 2, which never counts as SMBLEASE_TWICE. */
struct smblease_fault smblease_read_create_ask(const uint8_t *text, size_t length, struct smblease_create_ask *out);

/* Reads the create contexts of a CREATE response (2.2.14.2), likewise. A DHnC is not known there. */
struct smblease_fault smblease_read_create_answer(const uint8_t *text, size_t length, struct smblease_create_answer *out);

/* Reads the create context that begins at a place of the text of a request or a response, and returns the
   first test of the layout that it fails, SMBLEASE_SHORT to SMBLEASE_BAD_DATA. Name and data lie within the
   text. The first context begins at 0; a text of no bytes has none. */
struct smblease_fault smblease_read_context(const uint8_t *text, size_t length, uint64_t place, struct smblease_context *out);

/* Reads the first create context of this name, likewise, and returns whether there is one: whether the name
   stands before the first fault of the text's layout. Where there is none, *out is as it was. */
bool smblease_find_context(const uint8_t *text, size_t length, const uint8_t *name, size_t name_length,
                           struct smblease_context *out);

/* Appends a create context of any name and data to the text of a request or a response, which is the first
   count bytes of room (or room_length, if that is less): one that isn't known here, as MxAc or QFid. It
   begins at the next multiple of 8, with zeros before it, and Next of the text's last context leads to it.
   Its data begin at a multiple of 8 after its name; DataOffset is 0 where there are none. A text of no bytes
   gets its first context. Gives the length of the new text; where the room is shorter, nothing is written.
   Gives 0, and writes nothing, where the text has a fault, or where Next, DataOffset or DataLength don't fit
   into their fields: a name has at most 65,512 bytes. Name and data don't overlap the room. */
size_t smblease_append_context(uint8_t *room, size_t room_length, uint64_t count, const uint8_t *name, size_t name_length,
                               const uint8_t *data, size_t data_length);

/* Which message the body of an OPLOCK_BREAK command is. */
enum smblease_message_kind {
    /* none of the following */
    SMBLEASE_OTHER_MESSAGE = 0,
    /* a lease break notification (2.2.23.2) */
    SMBLEASE_NOTIFICATION = 1,
    /* a lease break acknowledgment (2.2.24.2) where a client sent it, a response (2.2.25.2) where a
       server did: they have one layout */
    SMBLEASE_ACKNOWLEDGMENT_OR_RESPONSE = 2,
    /* a notification, an acknowledgment or a response on an oplock (2.2.23.1, 2.2.24.1, 2.2.25.1), which
       have the command, and which this library doesn't read */
    SMBLEASE_OPLOCK_BREAK = 3
};

/* Returns which message the bytes are, one of smblease_message_kind: the one whose StructureSize, 44, 36 or
   24, stands at their front, where they are no fewer. What follows the message is passed over. */
uint32_t smblease_message_kind(const uint8_t *bytes, size_t length);

/* Reads a notification (2.2.23.2) from the front of the bytes. The fault is SMBLEASE_SHORT where they are
   fewer than 44, else SMBLEASE_WRONG_SIZE where StructureSize is not 44. What follows is passed over. */
struct smblease_fault smblease_read_notification(const uint8_t *bytes, size_t length, struct smblease_notification *out);

/* Reads an acknowledgment (2.2.24.2), likewise, with 36 in the place of 44. */
struct smblease_fault smblease_read_acknowledgment(const uint8_t *bytes, size_t length, struct smblease_acknowledgment *out);

/* Reads a response (2.2.25.2), likewise. */
struct smblease_fault smblease_read_response(const uint8_t *bytes, size_t length, struct smblease_response *out);

/*
 * Writers. They read the struct, and return how many bytes its text takes. Where `length` is no less, the
 * text is written to the front of `room`, and what comes after it there is as it was; else nothing is
 * written. What is free in a message is 0.
 */

/* Writes the create contexts of a request (2.2.13.2): RqLs, DHnQ, DHnC, those that are asked for, without
   padding between them; SMBLEASE_CREATE_ASK_MOST bytes at most. */
size_t smblease_write_create_ask(const struct smblease_create_ask *ask, uint8_t *room, size_t length);

/* Writes the create contexts of a response (2.2.14.2): RqLs, DHnQ, those that are granted;
   SMBLEASE_CREATE_ANSWER_MOST bytes at most. */
size_t smblease_write_create_answer(const struct smblease_create_answer *answer, uint8_t *room, size_t length);

/* Writes a notification (2.2.23.2): SMBLEASE_NOTIFICATION_SIZE bytes. */
size_t smblease_write_notification(const struct smblease_notification *message, uint8_t *room, size_t length);

/* Writes an acknowledgment (2.2.24.2): SMBLEASE_ACKNOWLEDGMENT_SIZE bytes. */
size_t smblease_write_acknowledgment(const struct smblease_acknowledgment *message, uint8_t *room, size_t length);

/* Writes a response (2.2.25.2): SMBLEASE_RESPONSE_SIZE bytes. */
size_t smblease_write_response(const struct smblease_response *message, uint8_t *room, size_t length);

/* Returns whether a break asks for an acknowledgment (3.2.5.19.2), and writes it to *out where it does: the
   acknowledgment of the notification's key, with the state that the lease is broken to. Else *out is as it
   was. */
bool smblease_acknowledgment_due(const struct smblease_notification *notification, struct smblease_acknowledgment *out);

/*
 * Questions of states and opens. An open's access is what it may do: 1 for reading, plus 2 for writing. Its share
 * is what it lets other opens do, by the same numbers. Other bits are passed over, in states too.
 */

/* Returns whether two opens of a file conflict (2.2.13, 3.3.5.9): whether the access of one isn't within
   the share of the other. One whose access is 0 conflicts with none. */
bool smblease_opens_conflict(uint8_t access, uint8_t share, uint8_t other_access, uint8_t other_share);

/* Returns a state as a server grants it: itself, or 0 where it has no SMBLEASE_READ_CACHING (profile). */
uint32_t smblease_granted_form(uint32_t state);

/* Returns whether a break of a lease of this state is to be acknowledged (3.3.4.7): whether it holds more
   than SMBLEASE_READ_CACHING. */
bool smblease_needs_acknowledgment(uint32_t state);

/* Returns whether all that a state caches is cached in the other too. */
bool smblease_is_within(uint32_t state, uint32_t other);

#ifdef __cplusplus
}
#endif

#endif
