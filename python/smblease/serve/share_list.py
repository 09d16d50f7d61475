"""What the pipe srvsvc answers: the list of shares (MS-SRVS 3.1.4.8), in messages of DCE/RPC that impacket reads and writes."""
from __future__ import annotations

import struct
from collections.abc import Callable, Iterator

from impacket.dcerpc.v5 import rpcrt, srvs

from smblease import Status
from smblease.serve.status_error import StatusError

# What the pipe may be sent at once, and sends at once.
LONGEST_FRAGMENT = 4280
ACCEPTED, REFUSED = 0, 2
NO_SUCH_INTERFACE, NO_SUCH_SYNTAX = 1, 2
WHOLE = rpcrt.PFC_FIRST_FRAG | rpcrt.PFC_LAST_FRAG
NO_SUCH_OPERATION, PROTOCOL_ERROR = 0x1C010002, 0x1C01000B
DISK, SPECIAL_PIPE = 0, 0x80000003
INVALID_LEVEL = 124


class ShareList:
    """One open of the pipe."""

    def __init__(self, share: str) -> None:
        self._shares = ((share, DISK, ""), ("IPC$", SPECIAL_PIPE, "the list of shares"))
        self._is_bound = False

    def answer(self, fragment: bytes) -> bytes:
        """The answer to a whole message of DCE/RPC. Any other bytes are refused."""
        if len(fragment) > LONGEST_FRAGMENT:
            raise StatusError(Status.INVALID_PARAMETER)
        try:
            header = rpcrt.MSRPCHeader(fragment)
            if header["frag_len"] != len(fragment) or header["flags"] & WHOLE != WHOLE:
                return self._fault(header, PROTOCOL_ERROR)
            return self._answer(header, fragment)
        except Exception as fault:  # impacket raises bare ones at bytes that it can't read
            raise StatusError(Status.INVALID_PARAMETER) from fault

    def _answer(self, header: rpcrt.MSRPCHeader, fragment: bytes) -> bytes:
        if header["type"] in (rpcrt.MSRPC_BIND, rpcrt.MSRPC_ALTERCTX):
            return self._bound(header)
        if header["type"] != rpcrt.MSRPC_REQUEST or not self._is_bound:
            return self._fault(header, PROTOCOL_ERROR)
        request = rpcrt.MSRPCRequestHeader(fragment)
        if request["op_num"] != srvs.NetrShareEnum.opnum:
            return self._fault(header, NO_SUCH_OPERATION)
        response = self._enumerated(srvs.NetrShareEnum(request["pduData"]))
        return _message(rpcrt.MSRPC_RESPONSE, header, response.getData(), request["ctx_id"])

    def _bound(self, header: rpcrt.MSRPCHeader) -> bytes:
        """Each context that is proposed is taken, or refused with the reason (C706 12.6.3.1)."""
        bind = rpcrt.MSRPCBind(header["pduData"])
        results = b"".join(self._result(rpcrt.CtxItem(it)) for it in _contexts(bind))
        made = rpcrt.MSRPCBindAck()
        made["type"] = rpcrt.MSRPC_BINDACK if header["type"] == rpcrt.MSRPC_BIND else rpcrt.MSRPC_ALTERCTX_R
        made["flags"], made["call_id"] = WHOLE, header["call_id"]
        made["max_tfrag"] = made["max_rfrag"] = LONGEST_FRAGMENT
        made["assoc_group"] = bind["assoc_group"] or 1
        made["SecondaryAddr"] = r"\PIPE\srvsvc"
        made["SecondaryAddrLen"] = len(made["SecondaryAddr"]) + 1
        made["Pad"] = bytes(-(made["SecondaryAddrLen"] + rpcrt.MSRPCBindAck._SIZE) % 4)  # pylint: disable=protected-access
        made["ctx_num"], made["ctx_items"] = bind["ctx_num"], results
        made["frag_len"] = len(made.getData())
        return bytes(made.getData())

    def _result(self, item: rpcrt.CtxItem) -> bytes:
        made = rpcrt.CtxItemResult()
        is_syntax = item["TransferSyntax"] == rpcrt.DCERPC.NDRSyntax
        is_taken = is_syntax and item["AbstractSyntax"] == srvs.MSRPC_UUID_SRVS
        self._is_bound = self._is_bound or is_taken
        made["Result"] = ACCEPTED if is_taken else REFUSED
        made["Reason"] = 0 if is_taken else NO_SUCH_INTERFACE if is_syntax else NO_SUCH_SYNTAX
        made["TransferSyntax"] = rpcrt.DCERPC.NDRSyntax if is_taken else bytes(20)
        return bytes(made.getData())

    def _enumerated(self, asked: srvs.NetrShareEnum) -> srvs.NetrShareEnumResponse:
        """Levels 0 (names) and 1 (names, types and remarks)."""
        level = asked["InfoStruct"]["Level"]
        made = srvs.NetrShareEnumResponse()
        made["InfoStruct"]["Level"] = made["InfoStruct"]["ShareInfo"]["tag"] = level
        made["ErrorCode"] = 0
        entry = ENTRIES.get(level)
        if entry is None:
            made["InfoStruct"]["Level"] = made["InfoStruct"]["ShareInfo"]["tag"] = 0
            made["ErrorCode"] = INVALID_LEVEL
            return made
        held = made["InfoStruct"]["ShareInfo"][f"Level{level}"]
        made["TotalEntries"] = held["EntriesRead"] = len(self._shares)
        for share in self._shares:
            held["Buffer"].append(entry(*share))
        return made

    @staticmethod
    def _fault(header: rpcrt.MSRPCHeader, status: int) -> bytes:
        return _message(rpcrt.MSRPC_FAULT, header, struct.pack("<LL", status, 0), 0)


def _contexts(bind: rpcrt.MSRPCBind) -> Iterator[bytes]:
    """Each context that is proposed, with its first syntax."""
    place = 0
    for _ in range(bind["ctx_num"]):
        yield bind["ctx_items"][place:place + 44]
        place += 24 + 20 * bind["ctx_items"][place + 2]


def _message(kind: int, asked: rpcrt.MSRPCHeader, data: bytes, context: int) -> bytes:
    made = rpcrt.MSRPCRespHeader()
    made["type"], made["flags"], made["call_id"] = kind, WHOLE, asked["call_id"]
    made["ctx_id"], made["alloc_hint"], made["pduData"] = context, len(data), data
    return bytes(made.get_packet())


def _name(name: str, _kind: int, _remark: str) -> srvs.SHARE_INFO_0:
    made = srvs.SHARE_INFO_0()
    made["shi0_netname"] = f"{name}\0"
    return made


def _share(name: str, kind: int, remark: str) -> srvs.SHARE_INFO_1:
    made = srvs.SHARE_INFO_1()
    made["shi1_netname"], made["shi1_type"], made["shi1_remark"] = f"{name}\0", kind, f"{remark}\0"
    return made


ENTRIES: dict[int, Callable[[str, int, str], object]] = {0: _name, 1: _share}
