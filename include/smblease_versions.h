/*
 * Leases and durable opens of version 2 (MS-SMB2, dialects 3.0 to 3.1.1) for a host of smblease_manager.h: epochs,
 * ParentLeaseKeys and CreateGuids. None of it decides who may cache what, so the manager knows nothing of it. A
 * handle of this header follows what the manager decides, and gives the bytes that the host sends, in the version
 * that each lease and each durable open was asked with. What each function does is proved, for all arguments.
 *
 * The way of one break. Client 1 asks for a lease of version 2, and client 2 opens the same file.
 *
 * - A CREATE comes from client 1. Before anything else the host gives its create contexts, as they came, to
 *   smblease_versions_asked, under the tag that the manager is to have. Where `status` isn't 0 it answers with that,
 *   and where `again` isn't 0 with the open of this FileId, which the same create made before (a replay). Else it
 *   asks the manager, with `ask`: smblease_manager_create. If it refuses the create for a reason of its own, before
 *   it has asked the manager, it calls smblease_versions_leave with the tag.
 * - After this and every other call of the manager it calls smblease_versions_follow for each decision, in their
 *   order, once. Of the OPENED that answers the create the bytes are the create contexts of the answer: RqLs with
 *   the epoch, one above that which the client asked with, and DH2Q where the open is durable.
 * - Client 2 comes likewise. Of the BREAKS for client 1 the bytes are the notification, with its NewEpoch.
 * - A CLOSE is given to smblease_versions_closing, under its tag, before the manager is asked. After
 *   smblease_manager_cut the host calls smblease_versions_forget, and after smblease_manager_leave
 *   smblease_versions_leave with the same tags.
 *
 * An epoch rises with each break that is sent, and with each answer whose state the client doesn't know; an answer
 * while a break is in progress has the epoch of its notification. A lease keeps the version and the parent that it
 * was first asked with. A durable open keeps its CreateGuid, and DH2C needs the same.
 *
 * Where memory runs out nothing has changed, and the call may be made again. What smblease_manager.h says of handles
 * and threads holds here too: one call at a time uses the handles that it is given.
 */
#ifndef SMBLEASE_VERSIONS_H
#define SMBLEASE_VERSIONS_H

#include "smblease.h"
#include "smblease_machines.h"
#include "smblease_manager.h"

#ifdef __cplusplus
extern "C" {
#endif

struct smblease_versions { void *state; };

/* Knows of no lease and no open, as a manager that is new. What the handle held is freed. Allocates. DONE, or NO_MEMORY: then
   the handle is as it was. */
uint32_t smblease_versions_new(struct smblease_versions *versions);
/* Frees what is known; the handle is {0} then. Allocates nothing. */
void smblease_versions_free(struct smblease_versions *versions);

/* What becomes of a create by its contexts. Either `status` and `again` are 0, or all of `ask` is, and one of these two. */
struct smblease_versions_ask {
    /* what smblease_manager_create is given */
    struct smblease_create_ask ask;
    /* the FileId of the open that is answered again: its create came before, and this one is a replay (3.3.5.9.10) */
    uint64_t again;
    /* the NTSTATUS of a refusal: STATUS_OBJECT_NAME_NOT_FOUND where DH2C names an open that is there under another CreateGuid
       (3.3.5.9.12); where DH2Q has a CreateGuid that the client has used, STATUS_DUPLICATE_OBJECTID, or
       STATUS_FILE_NOT_AVAILABLE for the replay of a create that isn't answered (3.3.5.9.10) */
    uint32_t status;
    uint32_t reserved;
};

/* A create of the client comes under the tag with these create contexts (2.2.13.2), of either version; `replay` where its header
   has SMB2_FLAGS_REPLAY_OPERATION. Where the manager is to be asked, it is known what for until that is answered. Looks through
   the opens where there is a DH2Q. Allocates. DONE, NO_MEMORY, NONE, or DAMAGED where the contexts can't be read, two leases are
   asked for, or durable contexts exclude each other: STATUS_INVALID_PARAMETER answers the request. Unless DONE nothing is
   written, and nothing changed. */
uint32_t smblease_versions_asked(struct smblease_versions *versions, uint64_t client, uint64_t tag, uint8_t replay,
                                 const uint8_t *contexts, size_t length, struct smblease_versions_ask *out);

/* A close of the client's open comes under the tag. Allocates. DONE, NO_MEMORY or NONE; unless DONE nothing changed. */
uint32_t smblease_versions_closing(struct smblease_versions *versions, uint64_t client, uint64_t tag, uint64_t file_id);

/* What the client asked and has no answer is forgotten: all of it, or what it asked under these tags; the list may be empty, and
   NULL then. Leave allocates. DONE, NONE, or of leave NO_MEMORY: then nothing changed. */
uint32_t smblease_versions_forget(struct smblease_versions *versions, uint64_t client);
uint32_t smblease_versions_leave(struct smblease_versions *versions, uint64_t client, const uint64_t *tags, size_t count);

/* the most bytes that are sent for a decision */
#define SMBLEASE_VERSIONS_MESSAGE_MOST 204

/* What is sent for a decision: the first `length` bytes, and zeros after them. */
struct smblease_versions_message {
    uint8_t bytes[SMBLEASE_VERSIONS_MESSAGE_MOST];
    uint32_t length;
};

/* Follows the decision that has this index, from 0, among those of the manager's last call. The bytes are the create contexts of
   an OPENED's answer (2.2.14.2), to which smblease_append_context adds others, and where it has DH2Q that has this timeout, in
   milliseconds; the notification of a BREAKS (2.2.23.2); and none of any other decision. The manager is as it was. Allocates of an
   OPENED alone. DONE, NO_MEMORY, NONE where a handle holds nothing, or NO_SUCH where nothing has the index; unless DONE nothing is
   written, and nothing changed. */
uint32_t smblease_versions_follow(struct smblease_versions *versions, struct smblease_manager *manager, size_t index,
                                  uint32_t timeout, struct smblease_versions_message *out);

#ifdef __cplusplus
}
#endif

#endif
