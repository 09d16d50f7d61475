"""The structs of the headers, as ctypes lays them out: smblease_create_ask is CreateAsk here, and so on."""
import ctypes
from ctypes import c_uint8, c_uint32, c_uint64


class VersionNumbers(ctypes.Structure):
    _fields_ = [("major", c_uint32), ("minor", c_uint32), ("patch", c_uint32)]


class Fault(ctypes.Structure):
    _fields_ = [("place", c_uint64), ("kind", c_uint32), ("reserved", c_uint32)]


class Context(ctypes.Structure):
    _fields_ = [("name_place", c_uint64), ("name_length", c_uint64), ("data_place", c_uint64), ("data_length", c_uint64),
                ("next_place", c_uint64)]


class CreateAsk(ctypes.Structure):
    _fields_ = [("key", c_uint8 * 16), ("file_id", c_uint64), ("state", c_uint32), ("has_lease", c_uint8), ("durable", c_uint8),
                ("has_reconnect", c_uint8), ("has_other_lease", c_uint8), ("reserved", c_uint64 * 6)]


class CreateAnswer(ctypes.Structure):
    _fields_ = [("key", c_uint8 * 16), ("state", c_uint32), ("has_lease", c_uint8), ("breaking", c_uint8), ("durable", c_uint8),
                ("has_other_lease", c_uint8), ("reserved", c_uint64 * 6)]


class Notification(ctypes.Structure):
    _fields_ = [("key", c_uint8 * 16), ("current_state", c_uint32), ("new_state", c_uint32), ("ack_required", c_uint8),
                ("reserved", c_uint8 * 15)]


class Acknowledgment(ctypes.Structure):
    _fields_ = [("key", c_uint8 * 16), ("state", c_uint32), ("reserved", c_uint8 * 12)]


class Response(ctypes.Structure):
    _fields_ = [("key", c_uint8 * 16), ("state", c_uint32), ("reserved", c_uint8 * 12)]


class Guid(ctypes.Structure):
    _fields_ = [("bytes", c_uint8 * 16)]


class Key(ctypes.Structure):
    _fields_ = [("bytes", c_uint8 * 16)]


class MaybeKey(ctypes.Structure):
    _fields_ = [("bytes", c_uint8 * 16), ("has_key", c_uint8)]


class BreakMessage(ctypes.Structure):
    _fields_ = [("bytes", c_uint8 * 44)]


class AckMessage(ctypes.Structure):
    _fields_ = [("bytes", c_uint8 * 36)]


class Client(ctypes.Structure):
    _fields_ = [("state", ctypes.c_void_p)]


class OpenTerms(ctypes.Structure):
    _fields_ = [("want", c_uint32), ("file", c_uint8), ("access", c_uint8), ("share", c_uint8), ("durable", c_uint8),
                ("reserved", c_uint8 * 24)]


class Answer(ctypes.Structure):
    _fields_ = [("length", c_uint64), ("kind", c_uint32), ("refusal", c_uint32), ("status", c_uint32), ("cached", c_uint8),
                ("reserved", c_uint8 * 27)]


class ClientRequest(ctypes.Structure):
    _fields_ = [("file_id", c_uint64), ("number", c_uint64), ("length", c_uint64), ("kind", c_uint32), ("offset", c_uint32),
                ("file", c_uint8), ("access", c_uint8), ("share", c_uint8), ("reserved", c_uint8 * 29)]


class Note(ctypes.Structure):
    _fields_ = [("number", c_uint64), ("length", c_uint64), ("kind", c_uint32), ("outcome", c_uint32), ("offset", c_uint32),
                ("state", c_uint32), ("file", c_uint8), ("buffered", c_uint8), ("reserved", c_uint8 * 30)]


class Files(ctypes.Structure):
    _fields_ = [("state", ctypes.c_void_p)]


class Server(ctypes.Structure):
    _fields_ = [("state", ctypes.c_void_p)]


class ServerOut(ctypes.Structure):
    _fields_ = [("file_id", c_uint64), ("number", c_uint64), ("length", c_uint64), ("kind", c_uint32), ("status", c_uint32),
                ("offset", c_uint32), ("client", c_uint8), ("file", c_uint8), ("reserved", c_uint8 * 26)]


class Manager(ctypes.Structure):
    _fields_ = [("state", ctypes.c_void_p)]


class ManagerDecision(ctypes.Structure):
    _fields_ = [("client", c_uint64), ("tag", c_uint64), ("file_id", c_uint64), ("key", c_uint8 * 16), ("kind", c_uint32),
                ("status", c_uint32), ("state", c_uint32), ("current_state", c_uint32), ("new_state", c_uint32),
                ("has_lease", c_uint8), ("breaking", c_uint8), ("durable", c_uint8), ("ack_required", c_uint8),
                ("number", c_uint64), ("reserved", c_uint8 * 16)]


class HeldLease(ctypes.Structure):
    _fields_ = [("state", c_uint32), ("broken_to", c_uint32), ("breaking", c_uint8), ("reserved", c_uint8 * 23)]


class ListedOpen(ctypes.Structure):
    _fields_ = [("file_id", c_uint64), ("client", c_uint64), ("file", c_uint64), ("key", c_uint8 * 16), ("has_key", c_uint8),
                ("access", c_uint8), ("share", c_uint8), ("durable", c_uint8), ("connected", c_uint8), ("reserved", c_uint8 * 27)]


class ListedLease(ctypes.Structure):
    _fields_ = [("client", c_uint64), ("file", c_uint64), ("opens", c_uint64), ("key", c_uint8 * 16), ("state", c_uint32),
                ("broken_to", c_uint32), ("breaking", c_uint8), ("reserved", c_uint8 * 31)]


class ListedRequest(ctypes.Structure):
    _fields_ = [("file", c_uint64), ("client", c_uint64), ("tag", c_uint64), ("file_id", c_uint64), ("key", c_uint8 * 16),
                ("state", c_uint32), ("kind", c_uint32), ("access", c_uint8), ("share", c_uint8), ("has_lease", c_uint8),
                ("durable", c_uint8), ("has_reconnect", c_uint8), ("reserved", c_uint8 * 27)]


class Change(ctypes.Structure):
    _fields_ = [("file", c_uint64), ("client", c_uint64), ("tag", c_uint64), ("key", c_uint8 * 16), ("extent", c_uint32),
                ("has_key", c_uint8), ("reserved", c_uint8 * 11)]


class Versions(ctypes.Structure):
    _fields_ = [("state", ctypes.c_void_p)]


class VersionsAsk(ctypes.Structure):
    _fields_ = [("ask", CreateAsk), ("again", c_uint64), ("status", c_uint32), ("reserved", c_uint32)]


class VersionsMessage(ctypes.Structure):
    _fields_ = [("bytes", c_uint8 * 204), ("length", c_uint32)]


class ClientVersions(ctypes.Structure):
    _fields_ = [("state", ctypes.c_void_p)]
