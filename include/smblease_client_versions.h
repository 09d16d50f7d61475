/*
 * Leases and durable opens of version 2 (MS-SMB2, dialects 3.0 to 3.1.1) for a host of a client machine
 * (smblease_machines.h), which speaks version 1: epochs, ParentLeaseKeys and CreateGuids. A handle of this header
 * stands between the machine and the wire. What each function does is proved, for all arguments.
 *
 * - A request of the machine is a create: the host gives its contexts to smblease_client_versions_ask, with a new
 *   GUID, and sends those that it gets. RqLs has the newest epoch that is known of the lease; DHnQ has become DH2Q,
 *   and DHnC the DH2C with the CreateGuid of its open.
 * - The create is answered with success: the host gives the answer's contexts, its FileId and the GUID of its create
 *   to smblease_client_versions_answered, and has the machine take those that it gets.
 * - A break is notified: the host gives the message to smblease_client_versions_noticed, and has the machine take the
 *   one that it gets. Where it gets no bytes the message is late: nobody takes it, and nobody acknowledges it.
 * - An open is closed, or its reconnect refused: smblease_client_versions_closed.
 *
 * All other messages are those of version 1. A handle lives as long as its machine does, over all its connections, and
 * what it knows of a lease it keeps when the lease ends.
 *
 * Messages of several connections come in any order, and the epochs say which is newer: of each lease the newest epoch
 * and state are known, an answer that is late gives the machine that state, and a late notification no bytes. Epochs
 * are of 16 bits: newer is what lies ahead by less than 32,768. Where `in_order` is set, the message came over the
 * client's only connection, after all that was sent before it: then it is passed on as it was sent, whatever its epoch
 * is. On one connection a machine is so given what it would be given at dialect 2.1.
 *
 * Where memory runs out nothing has changed, and the call may be made again. What smblease_machines.h says of handles
 * and threads holds here too: one call at a time uses a handle.
 */
#ifndef SMBLEASE_CLIENT_VERSIONS_H
#define SMBLEASE_CLIENT_VERSIONS_H

#include "smblease.h"
#include "smblease_machines.h"
#include "smblease_versions.h"

#ifdef __cplusplus
extern "C" {
#endif

struct smblease_client_versions { void *state; };

/* Knows nothing. What the handle held is freed. Allocates. DONE, or NO_MEMORY: then the handle is as it was. */
uint32_t smblease_client_versions_new(struct smblease_client_versions *versions);
/* Frees what is known; the handle is {0} then. Allocates nothing. */
void smblease_client_versions_free(struct smblease_client_versions *versions);

/* What is sent for the create contexts of the machine's request (2.2.13.2): with the parent, the key of the lease of the file's
   folder, where there is one, and with this CreateGuid where the open is to be durable. A reconnect stays DHnC where its open has
   no CreateGuid. Allocates nothing. DONE, NONE, or DAMAGED where the contexts aren't those of version 1: then nothing is
   written. */
uint32_t smblease_client_versions_ask(struct smblease_client_versions *versions, const struct smblease_guid *guid,
                                      const struct smblease_maybe_key *parent, const uint8_t *contexts, size_t length,
                                      struct smblease_versions_message *out);

/* The create contexts of an answer have come (2.2.14.2), whose create had this CreateGuid; its open has this FileId. What the
   machine takes is written, in version 1. Allocates, of an open with DH2Q and of a lease of which nothing was known. DONE,
   NO_MEMORY, NONE, or DAMAGED where the contexts can't be read; unless DONE nothing is written, and nothing changed. */
uint32_t smblease_client_versions_answered(struct smblease_client_versions *versions, uint8_t in_order, uint64_t file_id,
                                           const struct smblease_guid *guid, const uint8_t *contexts, size_t length,
                                           struct smblease_versions_message *out);

/* The notification of a break has come (2.2.23.2). What the machine takes is written, in version 1, 44 bytes or none. Allocates, of
   a lease of which nothing was known. DONE, NO_MEMORY, NONE, or DAMAGED where it can't be read; unless DONE nothing is written,
   and nothing changed. */
uint32_t smblease_client_versions_noticed(struct smblease_client_versions *versions, uint8_t in_order,
                                          const struct smblease_break_message *message, struct smblease_versions_message *out);

/* The open of this FileId is closed, or the machine has given it up: its CreateGuid is forgotten. Allocates nothing. DONE or
   NONE. */
uint32_t smblease_client_versions_closed(struct smblease_client_versions *versions, uint64_t file_id);

#ifdef __cplusplus
}
#endif

#endif
