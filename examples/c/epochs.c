/* The way of one break under a lease of version 2 (MS-SMB2 2.2.13.2.10): prints what a server would send, with its epochs.
   cc -o epochs epochs.c -lsmblease && ./epochs */
#include <smblease_versions.h>
#include <stdio.h>

enum { LEASE_SIZE = 52, READ_WRITE = SMBLEASE_READS | SMBLEASE_WRITES, RWH = 7 };

static struct smblease_manager manager;
static struct smblease_versions versions;

/* A create of a client: its contexts go to the versions first, and what those say goes to the manager. */
static int asks(uint64_t client, uint64_t tag, uint64_t file, const uint8_t *contexts, size_t length) {
    struct smblease_versions_ask asked = {0};
    return smblease_versions_asked(&versions, client, tag, 0, contexts, length, &asked) == SMBLEASE_DONE && asked.status == 0 &&
           asked.again == 0 &&
           smblease_manager_create(&manager, client, tag, file, READ_WRITE, READ_WRITE, &asked.ask) == SMBLEASE_DONE;
}

/* Follows each decision of the manager's last call, and prints what is sent for it. */
static int follows(void) {
    for (size_t index = 0; index < smblease_manager_decision_count(&manager); index++) {
        struct smblease_manager_decision decision = {0};
        struct smblease_versions_message sent = {0};
        struct smblease_context lease = {0};
        if (smblease_manager_decision_at(&manager, index, &decision) != SMBLEASE_DONE ||
            smblease_versions_follow(&versions, &manager, index, 60000, &sent) != SMBLEASE_DONE)
            return 0;
        if (decision.kind == SMBLEASE_DECISION_BREAKS)
            printf("client %u: broken to %u, epoch %u\n", (unsigned)decision.client, (unsigned)decision.new_state,
                   (unsigned)(sent.bytes[2] | sent.bytes[3] << 8));
        else if (smblease_find_context(sent.bytes, sent.length, (const uint8_t *)"RqLs", 4, &lease))
            printf("client %u: granted %u, epoch %u\n", (unsigned)decision.client, (unsigned)decision.state,
                   (unsigned)(sent.bytes[lease.data_place + 48] | sent.bytes[lease.data_place + 49] << 8));
    }
    return 1;
}

int main(void) {
    /* LeaseKey of ones, LeaseState RWH at 16, Epoch 4 at 48 */
    uint8_t lease[LEASE_SIZE] = {0}, contexts[SMBLEASE_VERSIONS_MESSAGE_MOST];
    for (int at = 0; at < 16; at++) lease[at] = 1;
    lease[16] = RWH;
    lease[48] = 4;
    size_t length = smblease_append_context(contexts, sizeof contexts, 0, (const uint8_t *)"RqLs", 4, lease, sizeof lease);
    int done = smblease_manager_new(&manager, SMBLEASE_BY_KEY, SMBLEASE_WHOLE, UINT64_MAX) == SMBLEASE_DONE &&
               smblease_versions_new(&versions) == SMBLEASE_DONE && smblease_manager_join(&manager, 1) == SMBLEASE_DONE &&
               smblease_manager_join(&manager, 2) == SMBLEASE_DONE && asks(1, 10, 5, contexts, length) && follows() &&
               asks(2, 20, 5, NULL, 0) && follows();
    smblease_versions_free(&versions);
    smblease_manager_free(&manager);
    return done && fflush(stdout) == 0 ? 0 : 1;
}
