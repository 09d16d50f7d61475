/*
 * A manager of SMB 2.1 leases and durable opens (MS-SMB2 3.3) as a handle, for a file server that keeps its
 * files itself: it is to leases what a manager of locks is to locks. It has the opens, the leases, and the requests
 * and changes that wait for a break; names, bytes, sockets and timers are its host's. The host calls it for
 * what comes in, and carries out the decisions of each call, in their order. What each function does is proved,
 * for all arguments: it is what the rules of docs/MODEL.md say of the same call.
 *
 * Clients, files and tags are numbers of 64 bits that the host chooses: a client stands for a ClientGuid, a
 * file has a number from 1 on and isn't declared. FileIds are the manager's, from 1 on, and none is used
 * twice. A request or a change comes under a tag, by which its decisions name it: the host keeps under the tag
 * what is to be done when it goes on. While one waits under a tag, no other one of any client has it.
 *
 * A handle is a struct of one pointer. It starts as {0}, and holds nothing then. Never copy a handle.
 * smblease_manager_free frees what no other function freed. A call of the first part below replaces the
 * decisions of the call before it: read them by index, in order, after each call.
 *
 * The way of one break. Client 1 has file 5 open as FileId 1, with the lease K of all three caches, RWH.
 *
 * - A CREATE of file 5 comes from client 2. The host checks names and rights, reads the create contexts
 *   (smblease_read_create_ask), and asks: smblease_manager_create, under the tag 20. The decisions are
 *   BREAKS for client 1, of K from RWH to RH, which has to be acknowledged, and WAITS for tag 20.
 * - BREAKS: the host sends client 1 the notification (smblease_write_notification), and, since ack_required
 *   is set, starts a timer for the break, which keeps the number of the decision. WAITS: it answers the CREATE
 *   with STATUS_PENDING, and keeps it under its tag. Nothing has been opened yet.
 * - Client 1 writes back what it had cached: a WRITE by FileId 1. smblease_manager_write, under the tag 11,
 *   gives GOES_ON for it: the host writes the bytes at that place, and then answers.
 * - Client 1 acknowledges (smblease_read_acknowledgment): smblease_manager_acknowledge gives ACKNOWLEDGED,
 *   and then OPENED for tag 20, with FileId 2 and the lease that client 2 is granted. The host sends client 1
 *   the response (smblease_write_response); then it opens file 5 for FileId 2, and answers the CREATE that it
 *   kept (smblease_write_create_answer). Where it can't open the file, it answers
 *   with the failure, and closes FileId 2 (smblease_manager_close) once all decisions are carried out.
 * - Had client 1 not answered, the timer would run out: smblease_manager_run_out gives ENDED for FileId 1,
 *   whose handle the host lets go of, and then OPENED for tag 20. What client 1 still sends by FileId 1 is
 *   REFUSED with STATUS_FILE_CLOSED. A timer need not be stopped: where the break of its number has ended,
 *   nothing is decided, even if the lease is breaking again under another number. The manager keeps a number
 *   until its break is acknowledged, the lease breaks anew, or smblease_manager_run_out is called with it.
 * - Had client 2 taken its CREATE back by a CANCEL, smblease_manager_withdraw would give WITHDRAWN for tag 20,
 *   which the host answers with STATUS_CANCELLED. Had its connection been lost, smblease_manager_cut would
 *   give no decision for tag 20: the host forgets what it kept of that client. It would give ENDED for each open
 *   that goes with the connection, and LEFT_BEHIND for each that waits for the client, whose timer the host starts.
 *
 * The order of the decisions is an order of effects. A host carries out each one before it goes on to the
 * next, and those of one call before it makes another call. So where files are written asynchronously, a
 * GOES_ON has to have taken effect on the file before what comes after it is done; and what is sent to one
 * client is sent in this order, whatever file it is about. Take a host that answers OPENED above while the
 * write of tag 11 still lies in a queue: client 2 reads the old bytes, and may cache them by its lease. The
 * write comes to the file later, and no break follows, since by the order of the decisions it was there
 * before client 2 came. Client 2 goes on reading what the file no longer has. Where a write fails on the
 * disk, the host answers with the failure, and nothing has to be taken back.
 *
 * What is done to a file without a READ or a WRITE goes by smblease_manager_change, under a tag as a request. The decisions
 * end with GOES_ON for the tag where nothing is in its way. Else they end with WAITS, and GOES_ON stands among the decisions of
 * a later call. The host makes the change at its GOES_ON, before it carries out what stands after that. Only leases are in the
 * way of a change: changes have no order among themselves or with requests, and those that are free go on together, in order of
 * arrival.
 *
 * - Truncating a file, locking bytes of it, changing it from outside SMB: with the extent ALL, and the key of the open that
 *   it comes by, which gives up nothing, or none. Each other lease is broken once, straight to nothing.
 * - A CREATE that overwrites: with the extent ALL and the key that it asks with, before smblease_manager_create, where the
 *   create would not conflict.
 * - Renaming or removing a file, or changing its disposition: with the extent HANDLES. Who has the file open without
 *   caching its handle keeps it open; what waited for its client to come back ends.
 *
 * Changes that wait are tried again after a close, an acknowledgment, smblease_manager_give_up, the loss of a connection, a
 * timer, the end of a break, and a request that was left or taken back: on the files that the call was about, or on all where
 * a request that had waited closed an open. Leases that were granted since are broken for them too, and what nothing is in the
 * way of goes on. smblease_manager_change_at says which wait.
 * A host that asks itself has smblease_manager_give_up, and then smblease_manager_given_up: where that is 1 it makes the change
 * at once, before any other call, and else it does both again once an acknowledgment, a close, a cut or a timer was decided
 * about.
 *
 * An open that asks for no access to data (its attributes, say) is none of the manager's: the host opens it without a call,
 * and grants it nothing. SMB2 LOGOFF, and the loss of one of several connections of a client: smblease_manager_leave with the
 * opens and the tags that went with it; the last connection's loss is a cut. TREE_DISCONNECT closes the opens of the tree. A
 * BREAKS goes by a connection of the client that has an open under the key, else by any. Of what one request ends and
 * breaks, ENDED come first, by FileId; of a cut or a leave, before LEFT_BEHIND. Access rights map to reading and writing of
 * data (FILE_READ_DATA and FILE_EXECUTE; FILE_WRITE_DATA and FILE_APPEND_DATA); delete access is the host's own matter.
 * A create with has_reconnect is judged by FileId, file, client and key alone; what else it asks for is passed over.
 *
 * Memory: calls allocate with the program's malloc and realloc. Where memory runs out within a call of the
 * first part below, the manager is lost: it is freed with all that it knew, the handle is {0}, and the call
 * returns SMBLEASE_LOST. The host's files are as they were, but nobody knows any longer who has what open, or
 * caches it: the host cuts every connection, lets go of all that is open, answers nothing of what waited, and
 * makes a new manager. smblease_manager_new and the functions that list return SMBLEASE_NO_MEMORY then, and
 * nothing changed. Each function below says whether it allocates.
 *
 * What a caller has to keep to is what smblease_machines.h says of its handles: one call at a time uses a
 * handle, also one that only looks; handles share nothing, so threads may use different handles at once; a
 * handle may go to another thread where a lock, or the start or the end of a thread, orders the calls;
 * pointers are to structs that have been given some value before; and no function is called from a signal
 * handler, or from the forked child of a process with threads. Any number may stand in a field or be given.
 */
#ifndef SMBLEASE_MANAGER_H
#define SMBLEASE_MANAGER_H

#include "smblease.h"
#include "smblease_machines.h"

#ifdef __cplusplus
extern "C" {
#endif

struct smblease_manager { void *state; };

/* Makes a manager where nothing is open and no client has joined, of one of enum smblease_order and one of enum
   smblease_rise (smblease_machines.h). Windows and Samba were seen to go by SMBLEASE_BY_KEY and SMBLEASE_WHOLE.
   SMBLEASE_BY_CLIENT, the profile's, has a trap: a client that opens a file again without a key while it caches
   writes waits for the break of its own lease, its write-back waits for that create, and the timer takes the lease
   with what was cached. Files have the numbers from 1 to `files`: UINT64_MAX where the host checks them itself. What the handle
   held is freed. Allocates. DONE, NO_MEMORY, or NO_SUCH where a number stands for no rule; unless DONE the handle
   is as it was. */
uint32_t smblease_manager_new(struct smblease_manager *manager, uint32_t order, uint32_t rise, uint64_t files);
/* Frees the manager; the handle is {0} then. Allocates nothing. */
void smblease_manager_free(struct smblease_manager *manager);

/* ---- What comes in ---- */

/* A client connects (3.3.5.1), or its connection is lost (3.3.7.1); the timer of a break (3.3.6.5), by the
   number in its decision, or of a durable open (3.3.6.2), runs out; the break of a client's lease is
   ended whatever its timer says, as by an administrator. Where that doesn't apply nothing changes, nothing is
   decided and the manager is never lost. A cut gives no decision for what waited of the client; it forgets its changes,
   also those of a client that isn't connected. Allocate.
   DONE, LOST or NONE. */
uint32_t smblease_manager_join(struct smblease_manager *manager, uint64_t client);
uint32_t smblease_manager_cut(struct smblease_manager *manager, uint64_t client);
uint32_t smblease_manager_run_out(struct smblease_manager *manager, uint64_t number);
uint32_t smblease_manager_scavenge(struct smblease_manager *manager, uint64_t file_id);
uint32_t smblease_manager_expire(struct smblease_manager *manager, uint64_t client, const struct smblease_key *key);

/* A request of a client comes under a tag (3.3.5). Where the client isn't connected nothing changes, nothing
   is decided and the manager is never lost. A create opens a file or, where has_reconnect is set, connects a
   durable open again; has_other_lease is passed over. A write `fits` where it ends within what the host allows
   of a file; it is refused where it doesn't. Allocate. DONE, LOST or NONE; of create also NO_SUCH, where the
   access or the share stands for nothing. */
uint32_t smblease_manager_create(struct smblease_manager *manager, uint64_t client, uint64_t tag, uint64_t file,
                                 uint8_t access, uint8_t share, const struct smblease_create_ask *ask);
uint32_t smblease_manager_read(struct smblease_manager *manager, uint64_t client, uint64_t tag, uint64_t file_id);
uint32_t smblease_manager_write(struct smblease_manager *manager, uint64_t client, uint64_t tag, uint64_t file_id,
                                uint8_t fits);
uint32_t smblease_manager_close(struct smblease_manager *manager, uint64_t client, uint64_t tag, uint64_t file_id);

/* A client acknowledges a break (3.3.5.22.2), or sends an acknowledgment that can't be read; as a request,
   but under no tag. Allocate. DONE, LOST or NONE. */
uint32_t smblease_manager_acknowledge(struct smblease_manager *manager, uint64_t client,
                                      const struct smblease_acknowledgment *given);
uint32_t smblease_manager_acknowledge_malformed(struct smblease_manager *manager, uint64_t client);

/* A request or a change that waits on the file is taken back (3.3.5.16). Where none waits nothing changes, nothing is
   decided and the manager is never lost. Allocates. DONE, LOST or NONE. */
uint32_t smblease_manager_withdraw(struct smblease_manager *manager, uint64_t client, uint64_t tag, uint64_t file);

/* A client leaves these of its opens, and what it asked for under these tags and waits: the connection or the session that had
   them goes, and the client stays, by another one (profile; 3.3.5.6, 3.3.7.1). Each open ends or waits for the client, as by a
   cut, and a decision says which; of the requests and the changes none says anything. What isn't the client's, and an open
   that waits for it already, are passed over. Where the client isn't connected no more than its changes under these tags go,
   nothing is decided and the manager is never lost. Either list may be empty, and NULL then. Allocates. DONE, NO_MEMORY, LOST
   or NONE; where it is NO_MEMORY nothing changed. */
uint32_t smblease_manager_leave(struct smblease_manager *manager, uint64_t client, const uint64_t *file_ids,
                                size_t file_id_count, const uint64_t *tags, size_t tag_count);

/* What other keys on a file are to give up. */
enum smblease_manager_extent {
    /* handle caching */
    SMBLEASE_EXTENT_HANDLES = 1,
    /* all that is cached */
    SMBLEASE_EXTENT_ALL = 2
};

/* A change of the file that no open of a client asks for comes under a tag: other keys than this one of the client's give up as
   much (enum smblease_manager_extent); with no key each does (profile). Each lease is broken once, straight to what is left of
   it. The change goes on at once or waits, as the last decision says. The client need not be connected: a host may use a number
   of its own for what it does itself. Allocates. DONE, LOST, NONE, or NO_SUCH where the extent stands for nothing: then nothing
   changed. */
uint32_t smblease_manager_change(struct smblease_manager *manager, uint64_t client, uint64_t tag,
                                 const struct smblease_maybe_key *key, uint64_t file, uint32_t extent);
/* The same without a tag, and nothing is kept of it: smblease_manager_given_up says whether anything is left in the way.
   Allocates. DONE, LOST, NONE, or NO_SUCH where the extent stands for nothing: then nothing changed. */
uint32_t smblease_manager_give_up(struct smblease_manager *manager, uint64_t client, const struct smblease_maybe_key *key,
                                  uint64_t file, uint32_t extent);

/* ---- What is decided ---- */

enum smblease_manager_decision_kind {
    /* The create is answered: the file is open under this FileId, or is again. client, tag, file_id, durable,
       has_lease, and with it key, state and breaking */
    SMBLEASE_DECISION_OPENED = 1,
    /* The read, the write or the change is done now, and answered. client, tag */
    SMBLEASE_DECISION_GOES_ON = 2,
    /* The close is done, and answered. client, tag */
    SMBLEASE_DECISION_CLOSED = 3,
    /* The request is answered with the status. client, tag, status */
    SMBLEASE_DECISION_REFUSED = 4,
    /* The request or the change waits for a break: it is answered with STATUS_PENDING, and a decision of another kind
       comes for its tag. client, tag */
    SMBLEASE_DECISION_WAITS = 5,
    /* The request or the change that waited was taken back. client, tag */
    SMBLEASE_DECISION_WITHDRAWN = 6,
    /* The client is sent a notification. client, key, current_state, new_state, ack_required: the client has to
       acknowledge it, and a timer is started, of this number, which is from 1 on and given once */
    SMBLEASE_DECISION_BREAKS = 7,
    /* The acknowledgment is answered with a response, and the break has ended. client, key, state: what the
       lease has */
    SMBLEASE_DECISION_ACKNOWLEDGED = 8,
    /* The acknowledgment is answered with the status. client, status */
    SMBLEASE_DECISION_NOT_ACKNOWLEDGED = 9,
    /* The open is no more, though its client didn't close it: the host lets go of its handle. file_id */
    SMBLEASE_DECISION_ENDED = 10,
    /* The open waits for its client from now on: the host starts its timer (3.3.6.2). file_id */
    SMBLEASE_DECISION_LEFT_BEHIND = 11
};

/* What the host is to do. What has no meaning for the kind is 0. */
struct smblease_manager_decision {
    uint64_t client;
    uint64_t tag;
    uint64_t file_id;
    uint8_t key[16];
    uint32_t kind;
    /* an NTSTATUS */
    uint32_t status;
    /* the bits of LeaseState */
    uint32_t state;
    uint32_t current_state;
    uint32_t new_state;
    uint8_t has_lease;
    uint8_t breaking;
    uint8_t durable;
    uint8_t ack_required;
    uint64_t number;
    uint8_t reserved[16];
};

/* What the last call decided. Allocate nothing. The count is 0 where there is no manager. DONE, NONE, or
   NO_SUCH where nothing has the index; unless DONE nothing is written. */
size_t smblease_manager_decision_count(struct smblease_manager *manager);
uint32_t smblease_manager_decision_at(struct smblease_manager *manager, size_t index,
                                      struct smblease_manager_decision *decision);

/* ---- Questions ---- */

/* Nothing changes, and the decisions stay. Allocate nothing. Where there is no manager, those that return no
   outcome return 0. */

/* 1 where it is so, and else 0: the client is connected; a break of its lease waits for an acknowledgment; its
   request or its change under the tag waits on the file; an open of this FileId waits for its client to connect again; there
   is an open of this FileId, connected or not. */
uint32_t smblease_manager_connected(struct smblease_manager *manager, uint64_t client);
uint32_t smblease_manager_breaking(struct smblease_manager *manager, uint64_t client, const struct smblease_key *key);
uint32_t smblease_manager_waiting(struct smblease_manager *manager, uint64_t client, uint64_t tag, uint64_t file);
uint32_t smblease_manager_left_behind(struct smblease_manager *manager, uint64_t file_id);
uint32_t smblease_manager_has_open(struct smblease_manager *manager, uint64_t file_id);
/* 1 where a read, or a write within what the host allows of a file, by this FileId of the client would be done at once and
   break nothing: the host may do it then, before any other call, without one; and else 0. */
uint32_t smblease_manager_may_read(struct smblease_manager *manager, uint64_t client, uint64_t file_id);
uint32_t smblease_manager_may_write(struct smblease_manager *manager, uint64_t client, uint64_t file_id);
/* 1 where no other key on the file than this one of the client's is in the way (enum smblease_manager_extent): none holds
   handles; or none caches writes, or anything without being broken to nothing. Else 0, also where the extent stands for
   nothing. */
uint32_t smblease_manager_given_up(struct smblease_manager *manager, uint64_t client, const struct smblease_maybe_key *key,
                                   uint64_t file, uint32_t extent);
/* How many opens there are, those that wait for their clients too. */
size_t smblease_manager_open_count(struct smblease_manager *manager);
/* What may be granted of the state that is wanted: the bits of LeaseState. Whether the key is expired, or its lease breaking,
   isn't looked at. */
uint32_t smblease_manager_allowed(struct smblease_manager *manager, uint64_t client, const struct smblease_maybe_key *key,
                                  uint64_t file, uint32_t want);
/* The client's oldest durable open on the file that waits for it. DONE, NONE, or NO_SUCH where there is none;
   unless DONE nothing is written. */
uint32_t smblease_manager_kept(struct smblease_manager *manager, uint64_t client, uint64_t file, uint64_t *file_id);

/* A lease (3.3.1.12). */
struct smblease_held_lease {
    /* the bits of LeaseState */
    uint32_t state;
    /* while a break waits for its acknowledgment, what it is broken to */
    uint32_t broken_to;
    uint8_t breaking;
    uint8_t reserved[23];
};

/* The lease of the client's key; that of a key that no open has holds nothing. DONE or NONE; unless DONE
   nothing is written. */
uint32_t smblease_manager_lease(struct smblease_manager *manager, uint64_t client, const struct smblease_key *key,
                                struct smblease_held_lease *lease);

/* An open (3.3.1.10); its access and its share as smblease_manager_create takes them. */
struct smblease_listed_open {
    uint64_t file_id;
    uint64_t client;
    uint64_t file;
    /* where has_key is set */
    uint8_t key[16];
    uint8_t has_key;
    uint8_t access;
    uint8_t share;
    uint8_t durable;
    uint8_t connected;
    uint8_t reserved[27];
};

/* Lists all opens as they stand, in the order of their FileIds; the decisions stay. The list is there until the
   next call of the first part above. Allocates. DONE, NO_MEMORY or NONE; unless DONE nothing changed. */
uint32_t smblease_manager_list_opens(struct smblease_manager *manager);
/* The open that was listed at this index. Allocates nothing. DONE, NONE, or NO_SUCH where nothing has the index;
   unless DONE nothing is written. */
uint32_t smblease_manager_listed_at(struct smblease_manager *manager, size_t index, struct smblease_listed_open *listed);

/* A lease (3.3.1.12), with its client, its key, its file, and how many opens it has. */
struct smblease_listed_lease {
    uint64_t client;
    uint64_t file;
    uint64_t opens;
    uint8_t key[16];
    /* the bits of LeaseState */
    uint32_t state;
    /* while a break waits for its acknowledgment, what it is broken to */
    uint32_t broken_to;
    uint8_t breaking;
    uint8_t reserved[31];
};

/* Lists all leases as they stand, in order of their clients' numbers, then of their keys' bytes; the decisions stay. The
   list is there until the next call of the first part above. Allocates. DONE, NO_MEMORY or NONE; unless DONE nothing
   changed. */
uint32_t smblease_manager_list_leases(struct smblease_manager *manager);
/* The lease that was listed at this index. Allocates nothing. DONE, NONE, or NO_SUCH where nothing has the index; unless
   DONE nothing is written. */
uint32_t smblease_manager_listed_lease_at(struct smblease_manager *manager, size_t index, struct smblease_listed_lease *listed);

/* What a request that waits is. */
enum smblease_request_that_waits {
    SMBLEASE_WAITING_CREATE = 1,
    SMBLEASE_WAITING_READ = 2,
    SMBLEASE_WAITING_WRITE = 3,
    SMBLEASE_WAITING_CLOSE = 4
};

/* A request that waits (3.3.4.2): on which file, of which client, under which tag. What has no meaning for its kind is
   0. */
struct smblease_listed_request {
    uint64_t file;
    uint64_t client;
    uint64_t tag;
    /* of a read, a write or a close its open; of a create the one to be connected again, where has_reconnect is set */
    uint64_t file_id;
    /* of a create its lease key and the state that it wants, where has_lease is set */
    uint8_t key[16];
    uint32_t state;
    /* one of enum smblease_request_that_waits */
    uint32_t kind;
    /* of a create, as smblease_manager_create takes them */
    uint8_t access;
    uint8_t share;
    uint8_t has_lease;
    uint8_t durable;
    uint8_t has_reconnect;
    uint8_t reserved[27];
};

/* Lists all requests that wait, in order of their files' numbers, and on each file in order of arrival; the decisions stay.
   The list is there until the next call of the first part above. Allocates. DONE, NO_MEMORY or NONE; unless DONE nothing
   changed. */
uint32_t smblease_manager_list_requests(struct smblease_manager *manager);
/* The request that was listed at this index, of which enum smblease_request_that_waits says the kind. Allocates nothing.
   DONE, NONE, or NO_SUCH where nothing has the index; unless DONE nothing is written. */
uint32_t smblease_manager_listed_request_at(struct smblease_manager *manager, size_t index,
                                            struct smblease_listed_request *listed);

/* A change that waits. */
struct smblease_change {
    uint64_t file;
    uint64_t client;
    uint64_t tag;
    /* that which gives up nothing, where has_key is set */
    uint8_t key[16];
    /* what other keys are to give up: one of enum smblease_manager_extent */
    uint32_t extent;
    uint8_t has_key;
    uint8_t reserved[11];
};

/* The change that waits at this index, from 0, in order of arrival; the decisions stay. Nothing has to be listed first.
   Allocates nothing. DONE, NONE, or NO_SUCH where nothing has the index; unless DONE nothing is written. */
uint32_t smblease_manager_change_at(struct smblease_manager *manager, size_t index, struct smblease_change *out);

/* ---- What is kept over a restart ---- */

/* The bytes of what a host keeps over a restart of its own: the opens that would be there were each client cut now (3.3.7.1),
   with what their leases hold, and the FileId given last; no requests or changes. They are written to `room` where they fit
   its `size`, and else nothing is written there; `length` says how many they are. A host writes them to a disk as often as it
   likes to be able to come back, before it answers what changed them: a durable open that isn't among them is lost. Allocates.
   DONE, NO_MEMORY or NONE; unless DONE nothing is written. */
uint32_t smblease_manager_export(struct smblease_manager *manager, size_t *length, uint8_t *room, size_t size);
/* Makes a manager, as smblease_manager_new does, that has the opens of these bytes, which smblease_manager_export wrote. Each
   of them waits for its client to connect again, and the host starts its timer (3.3.6.2); smblease_manager_list_opens says
   which they are. No client has joined. Allocates. DONE, NO_MEMORY, or NO_SUCH where a number stands for no rule; DAMAGED
   where the bytes were cut off or changed, or are others; UNLAWFUL where what they hold would break a law of managers, as
   two opens that conflict, a number of a file above `files`, or two keys on a file of which one caches writes. Unless DONE
   the handle is as it was. */
uint32_t smblease_manager_import(struct smblease_manager *manager, uint32_t order, uint32_t rise, uint64_t files,
                                 const uint8_t *bytes, size_t length);

#ifdef __cplusplus
}
#endif

#endif
