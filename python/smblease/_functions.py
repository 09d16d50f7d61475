"""The functions of the headers: of each what it gives, and what it is given."""
from ctypes import POINTER, c_bool, c_char, c_char_p, c_size_t, c_uint8, c_uint32, c_uint64
from typing import Any, Dict, Tuple

from smblease import _structs as structs

_BYTES = (c_char_p, c_size_t)
_ROOM = (POINTER(c_char), c_size_t)
_CLIENT = POINTER(structs.Client)
_SERVER = POINTER(structs.Server)
_MANAGER = POINTER(structs.Manager)
_VERSIONS = POINTER(structs.Versions)
_CLIENT_VERSIONS = POINTER(structs.ClientVersions)
_MESSAGE = POINTER(structs.VersionsMessage)
_KEY = POINTER(structs.Key)

Signature = Tuple[Any, Tuple[Any, ...]]

# What is read from bytes, and written.
_CODED: Dict[str, Any] = {"create_ask": structs.CreateAsk, "create_answer": structs.CreateAnswer, "response": structs.Response,
                          "notification": structs.Notification, "acknowledgment": structs.Acknowledgment}

CODEC: Dict[str, Signature] = {
    **{f"read_{name}": (structs.Fault, (*_BYTES, POINTER(kind))) for name, kind in _CODED.items()},
    **{f"write_{name}": (c_size_t, (POINTER(kind), *_ROOM)) for name, kind in _CODED.items()},
    "version": (structs.VersionNumbers, ()),
    "fault_status": (c_uint32, (c_uint32,)),
    "fault_name": (c_size_t, (c_uint32, *_ROOM)),
    "read_context": (structs.Fault, (*_BYTES, c_uint64, POINTER(structs.Context))),
    "find_context": (c_bool, (*_BYTES, *_BYTES, POINTER(structs.Context))),
    "append_context": (c_size_t, (*_ROOM, c_uint64, *_BYTES, *_BYTES)),
    "message_kind": (c_uint32, _BYTES),
    "acknowledgment_due": (c_bool, (POINTER(structs.Notification), POINTER(structs.Acknowledgment))),
}

STATES: Dict[str, Signature] = {
    "opens_conflict": (c_bool, (c_uint8, c_uint8, c_uint8, c_uint8)),
    "granted_form": (c_uint32, (c_uint32,)),
    "needs_acknowledgment": (c_bool, (c_uint32,)),
    "is_within": (c_bool, (c_uint32, c_uint32)),
}

CLIENT: Dict[str, Signature] = {
    "client_new": (c_uint32, (_CLIENT, POINTER(structs.Guid), c_uint8)),
    "client_free": (None, (_CLIENT,)),
    "client_connect": (c_uint32, (_CLIENT,)),
    "client_notice": (c_uint32, (_CLIENT,)),
    "client_open": (c_uint32, (_CLIENT, POINTER(structs.OpenTerms))),
    "client_close": (c_uint32, (_CLIENT, c_uint8)),
    "client_read": (c_uint32, (_CLIENT, c_uint8)),
    "client_write": (c_uint32, (_CLIENT, c_uint8, c_uint32, *_BYTES)),
    "client_flush": (c_uint32, (_CLIENT, c_uint8)),
    "client_take_created": (c_uint32, (_CLIENT, c_uint8, c_uint64, *_BYTES)),
    "client_take_create_failed": (c_uint32, (_CLIENT, c_uint8, c_uint32)),
    "client_take_read_done": (c_uint32, (_CLIENT, c_uint64, *_BYTES)),
    "client_take_read_failed": (c_uint32, (_CLIENT, c_uint64, c_uint32)),
    "client_take_write_done": (c_uint32, (_CLIENT, c_uint64, c_uint64)),
    "client_take_write_failed": (c_uint32, (_CLIENT, c_uint64, c_uint64, c_uint32)),
    "client_take_closed": (c_uint32, (_CLIENT, c_uint64)),
    "client_take_close_failed": (c_uint32, (_CLIENT, c_uint64, c_uint32)),
    "client_take_break": (c_uint32, (_CLIENT, POINTER(structs.BreakMessage))),
    "client_take_ack_done": (c_uint32, (_CLIENT, POINTER(structs.AckMessage))),
    "client_take_ack_failed": (c_uint32, (_CLIENT, c_uint32)),
    "client_answer": (c_uint32, (_CLIENT, POINTER(structs.Answer), *_ROOM)),
    "client_request_at": (c_uint32, (_CLIENT, c_size_t, POINTER(structs.ClientRequest), *_ROOM)),
    "client_note_at": (c_uint32, (_CLIENT, c_size_t, POINTER(structs.Note), *_ROOM)),
    "client_request_count": (c_size_t, (_CLIENT,)),
    "client_note_count": (c_size_t, (_CLIENT,)),
    "client_belief": (c_uint32, (_CLIENT, c_uint8)),
    "client_key": (None, (POINTER(structs.Guid), c_uint8, _KEY)),
}

SERVER: Dict[str, Signature] = {
    "files_add": (c_uint32, (POINTER(structs.Files), *_BYTES)),
    "files_free": (None, (POINTER(structs.Files),)),
    "server_new": (c_uint32, (_SERVER, POINTER(structs.Files))),
    "server_new_with_rules": (c_uint32, (_SERVER, POINTER(structs.Files), c_uint32, c_uint32)),
    "server_free": (None, (_SERVER,)),
    "server_join": (c_uint32, (_SERVER, c_uint8)),
    "server_cut": (c_uint32, (_SERVER, c_uint8)),
    "server_expire": (c_uint32, (_SERVER, c_uint8, _KEY)),
    "server_scavenge": (c_uint32, (_SERVER, c_uint64)),
    "server_receive_create": (c_uint32, (_SERVER, c_uint8, c_uint8, c_uint8, c_uint8, *_BYTES)),
    "server_receive_read": (c_uint32, (_SERVER, c_uint8, c_uint64)),
    "server_receive_write": (c_uint32, (_SERVER, c_uint8, c_uint64, c_uint64, c_uint32, *_BYTES)),
    "server_receive_close": (c_uint32, (_SERVER, c_uint8, c_uint64)),
    "server_receive_ack": (c_uint32, (_SERVER, c_uint8, POINTER(structs.AckMessage))),
    "server_out_count": (c_size_t, (_SERVER,)),
    "server_out_at": (c_uint32, (_SERVER, c_size_t, POINTER(structs.ServerOut), *_ROOM)),
    "server_allowed": (c_uint32, (_SERVER, c_uint8, POINTER(structs.MaybeKey), c_uint8, c_uint32)),
    "server_connected": (c_uint32, (_SERVER, c_uint8)),
    "server_breaking": (c_uint32, (_SERVER, c_uint8, _KEY)),
    "server_left_behind": (c_uint32, (_SERVER, c_uint64)),
    "server_kept": (c_uint32, (_SERVER, c_uint8, c_uint8, POINTER(c_uint64))),
    "server_content": (c_uint32, (_SERVER, c_uint8, POINTER(c_uint64), *_ROOM)),
}

MANAGER: Dict[str, Signature] = {
    "manager_new": (c_uint32, (_MANAGER, c_uint32, c_uint32, c_uint64)),
    "manager_free": (None, (_MANAGER,)),
    "manager_join": (c_uint32, (_MANAGER, c_uint64)),
    "manager_cut": (c_uint32, (_MANAGER, c_uint64)),
    "manager_expire": (c_uint32, (_MANAGER, c_uint64, _KEY)),
    "manager_run_out": (c_uint32, (_MANAGER, c_uint64)),
    "manager_scavenge": (c_uint32, (_MANAGER, c_uint64)),
    "manager_create": (c_uint32, (_MANAGER, c_uint64, c_uint64, c_uint64, c_uint8, c_uint8, POINTER(structs.CreateAsk))),
    "manager_read": (c_uint32, (_MANAGER, c_uint64, c_uint64, c_uint64)),
    "manager_write": (c_uint32, (_MANAGER, c_uint64, c_uint64, c_uint64, c_uint8)),
    "manager_close": (c_uint32, (_MANAGER, c_uint64, c_uint64, c_uint64)),
    "manager_acknowledge": (c_uint32, (_MANAGER, c_uint64, POINTER(structs.Acknowledgment))),
    "manager_acknowledge_malformed": (c_uint32, (_MANAGER, c_uint64)),
    "manager_withdraw": (c_uint32, (_MANAGER, c_uint64, c_uint64, c_uint64)),
    "manager_leave": (c_uint32, (_MANAGER, c_uint64, POINTER(c_uint64), c_size_t, POINTER(c_uint64), c_size_t)),
    "manager_change": (c_uint32, (_MANAGER, c_uint64, c_uint64, POINTER(structs.MaybeKey), c_uint64, c_uint32)),
    "manager_give_up": (c_uint32, (_MANAGER, c_uint64, POINTER(structs.MaybeKey), c_uint64, c_uint32)),
    "manager_given_up": (c_uint32, (_MANAGER, c_uint64, POINTER(structs.MaybeKey), c_uint64, c_uint32)),
    "manager_may_read": (c_uint32, (_MANAGER, c_uint64, c_uint64)),
    "manager_may_write": (c_uint32, (_MANAGER, c_uint64, c_uint64)),
    "manager_decision_count": (c_size_t, (_MANAGER,)),
    "manager_decision_at": (c_uint32, (_MANAGER, c_size_t, POINTER(structs.ManagerDecision))),
    "manager_connected": (c_uint32, (_MANAGER, c_uint64)),
    "manager_breaking": (c_uint32, (_MANAGER, c_uint64, _KEY)),
    "manager_waiting": (c_uint32, (_MANAGER, c_uint64, c_uint64, c_uint64)),
    "manager_left_behind": (c_uint32, (_MANAGER, c_uint64)),
    "manager_has_open": (c_uint32, (_MANAGER, c_uint64)),
    "manager_open_count": (c_size_t, (_MANAGER,)),
    "manager_allowed": (c_uint32, (_MANAGER, c_uint64, POINTER(structs.MaybeKey), c_uint64, c_uint32)),
    "manager_kept": (c_uint32, (_MANAGER, c_uint64, c_uint64, POINTER(c_uint64))),
    "manager_lease": (c_uint32, (_MANAGER, c_uint64, _KEY, POINTER(structs.HeldLease))),
    "manager_list_opens": (c_uint32, (_MANAGER,)),
    "manager_listed_at": (c_uint32, (_MANAGER, c_size_t, POINTER(structs.ListedOpen))),
    "manager_list_leases": (c_uint32, (_MANAGER,)),
    "manager_listed_lease_at": (c_uint32, (_MANAGER, c_size_t, POINTER(structs.ListedLease))),
    "manager_list_requests": (c_uint32, (_MANAGER,)),
    "manager_listed_request_at": (c_uint32, (_MANAGER, c_size_t, POINTER(structs.ListedRequest))),
    "manager_change_at": (c_uint32, (_MANAGER, c_size_t, POINTER(structs.Change))),
    "manager_export": (c_uint32, (_MANAGER, POINTER(c_size_t), *_ROOM)),
    "manager_import": (c_uint32, (_MANAGER, c_uint32, c_uint32, c_uint64, *_BYTES)),
}

VERSIONS: Dict[str, Signature] = {
    "versions_new": (c_uint32, (_VERSIONS,)),
    "versions_free": (None, (_VERSIONS,)),
    "versions_asked": (c_uint32, (_VERSIONS, c_uint64, c_uint64, c_uint8, *_BYTES, POINTER(structs.VersionsAsk))),
    "versions_closing": (c_uint32, (_VERSIONS, c_uint64, c_uint64, c_uint64)),
    "versions_forget": (c_uint32, (_VERSIONS, c_uint64)),
    "versions_leave": (c_uint32, (_VERSIONS, c_uint64, POINTER(c_uint64), c_size_t)),
    "versions_follow": (c_uint32, (_VERSIONS, _MANAGER, c_size_t, c_uint32, _MESSAGE)),
}

CLIENT_VERSIONS: Dict[str, Signature] = {
    "client_versions_new": (c_uint32, (_CLIENT_VERSIONS,)),
    "client_versions_free": (None, (_CLIENT_VERSIONS,)),
    "client_versions_ask": (c_uint32, (_CLIENT_VERSIONS, POINTER(structs.Guid), POINTER(structs.MaybeKey), *_BYTES, _MESSAGE)),
    "client_versions_answered": (c_uint32, (_CLIENT_VERSIONS, c_uint8, c_uint64, POINTER(structs.Guid), *_BYTES, _MESSAGE)),
    "client_versions_noticed": (c_uint32, (_CLIENT_VERSIONS, c_uint8, POINTER(structs.BreakMessage), _MESSAGE)),
    "client_versions_closed": (c_uint32, (_CLIENT_VERSIONS, c_uint64)),
}

FUNCTIONS: Dict[str, Signature] = {**CODEC, **STATES, **CLIENT, **SERVER, **MANAGER, **VERSIONS, **CLIENT_VERSIONS}
