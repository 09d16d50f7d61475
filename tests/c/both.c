/* All headers in one program, which is C and C++. With MACHINES_FIRST defined they come in the other order. */
#ifdef MACHINES_FIRST
#include <smblease_manager.h>
#include <smblease_machines.h>
#include <smblease.h>
#else
#include <smblease.h>
#include <smblease_machines.h>
#include <smblease_manager.h>
#endif

bool is_refused_beside_a_writer(struct smblease_client *client);

bool is_refused_beside_a_writer(struct smblease_client *client) {
    struct smblease_client_request sent = {0, 0, 0, 0, 0, 0, 0, 0, {0}};
    if (smblease_client_request_at(client, 0, &sent, NULL, 0) != SMBLEASE_DONE)
        return false;
    return smblease_opens_conflict(sent.access, sent.share, 2, 3);
}
