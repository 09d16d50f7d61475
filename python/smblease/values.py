"""Values that messages and machines have in common."""
from __future__ import annotations

import enum
import re
from typing import NamedTuple, Optional

from smblease._library import library

# The most bytes that a file has.
LARGEST_FILE = 1048576


class LeaseState(enum.Flag):
    """What a lease caches, by the bits of LeaseState (MS-SMB2 2.2.13.2.8): reads, handles, writes.

    >>> LeaseState.R | LeaseState.W, str(LeaseState.NONE)
    (<LeaseState RW>, 'none')
    >>> LeaseState.of("RWH") == LeaseState.R | LeaseState.W | LeaseState.H
    True
    >>> LeaseState.W in LeaseState.of("RH")
    False
    """

    NONE = 0
    R = 1
    H = 2
    W = 4

    @classmethod
    def _missing_(cls, value: object) -> LeaseState:
        # Some versions of Python would drop the bits that name nothing.
        if isinstance(value, int) and not 0 <= value <= 7:
            raise ValueError(f"{value} is no LeaseState")
        if isinstance(value, str):
            raise ValueError(f"a LeaseState is needed, as LeaseState.of({str(cls.of(value))!r}), and not a text")
        found: LeaseState = super()._missing_(value)
        return found

    @classmethod
    def of(cls, text: str) -> LeaseState:
        """The state that is written as `none` or as letters of RWH in that order.

        >>> LeaseState.of("HR")
        Traceback (most recent call last):
        ...
        ValueError: 'HR' is no lease state: none, or letters in the order R, W, H
        """
        for bits in range(8):
            if str(cls(bits)) == text:
                return cls(bits)
        raise ValueError(f"{text!r} is no lease state: none, or letters in the order R, W, H")

    def __str__(self) -> str:
        letters = "".join(letter for bit, letter in ((1, "R"), (4, "W"), (2, "H")) if self.value & bit)
        return letters or "none"

    def __repr__(self) -> str:
        return f"<LeaseState {self}>"


class Access(enum.Enum):
    """What an open may do.

    >>> Access(3)
    <Access.READ_WRITE: 3>
    """

    READ = 1
    WRITE = 2
    READ_WRITE = 3


class Share(enum.Enum):
    """What an open lets other opens do (ShareAccess, 2.2.13).

    >>> Share.NONE.value
    0
    """

    NONE = 0
    READ = 1
    WRITE = 2
    READ_WRITE = 3


def _uses(access: Optional[Access]) -> int:
    return 0 if access is None else Access(access).value


def opens_conflict(access: Optional[Access], share: Share, other_access: Optional[Access], other_share: Share) -> bool:
    """Whether two opens of a file conflict (2.2.13, 3.3.5.9). The access is None where an open neither reads nor writes.

    >>> opens_conflict(Access.READ, Share.READ, Access.WRITE, Share.READ_WRITE)
    True
    """
    return bool(library.smblease_opens_conflict(_uses(access), Share(share).value, _uses(other_access), Share(other_share).value))


def granted_form(state: LeaseState) -> LeaseState:
    """A state as a server grants it: itself, or nothing where it doesn't cache reads.

    >>> granted_form(LeaseState.of("WH"))
    <LeaseState none>
    """
    return LeaseState(library.smblease_granted_form(LeaseState(state).value))


def needs_acknowledgment(state: LeaseState) -> bool:
    """Whether a break of a lease of this state is to be acknowledged (3.3.4.7).

    >>> needs_acknowledgment(LeaseState.R), needs_acknowledgment(LeaseState.of("RH"))
    (False, True)
    """
    return bool(library.smblease_needs_acknowledgment(LeaseState(state).value))


def is_within(state: LeaseState, other: LeaseState) -> bool:
    """Whether all that a state caches is cached in the other too.

    >>> is_within(LeaseState.of("RH"), LeaseState.of("RWH"))
    True
    """
    return bool(library.smblease_is_within(LeaseState(state).value, LeaseState(other).value))


class Extent(enum.Enum):
    """What other keys on a file are to give up: the handles that they cache, or all that they cache.

    >>> Extent.ALL
    <Extent.ALL: 2>
    """

    HANDLES = 1
    ALL = 2


class Order(enum.Enum):
    """Which requests of one client on one file wait for one another: all, or those under one lease key or by one FileId.

    >>> Order(1)
    <Order.BY_KEY: 1>
    """

    BY_CLIENT = 0
    BY_KEY = 1


class Rise(enum.Enum):
    """How a lease rises when its client asks for more: as far as is free, or to all of it or not at all.

    >>> Rise.WHOLE.value
    1
    """

    AS_FREE = 0
    WHOLE = 1


class Rules(NamedTuple):
    """The rules that a server may choose; those of docs/PROFILE.md where none are named.

    >>> str(Rules()), Rules.of("by-key,whole").rise
    ('by-client,as-free', <Rise.WHOLE: 1>)
    """

    order: Order = Order.BY_CLIENT
    rise: Rise = Rise.AS_FREE

    @classmethod
    def of(cls, text: str) -> Rules:
        """The rules of two words, as lines of the machines have them.

        >>> Rules.of("whole")
        Traceback (most recent call last):
        ...
        ValueError: 'whole' is no rules: by-client or by-key, a comma, and as-free or whole
        """
        for rules in (cls(order, rise) for order in Order for rise in Rise):
            if str(rules) == text:
                return rules
        raise ValueError(f"{text!r} is no rules: by-client or by-key, a comma, and as-free or whole")

    def __str__(self) -> str:
        return f"{self.order.name},{self.rise.name}".lower().replace("_", "-")


class Status(enum.IntEnum):
    """Statuses of answers by their names in MS-ERREF 2.3.1, without `STATUS_`. Any other NTSTATUS is a plain number.

    >>> Status.SHARING_VIOLATION == 0xC0000043
    True
    """

    SUCCESS = 0x00000000
    PENDING = 0x00000103
    BUFFER_OVERFLOW = 0x80000005
    NO_MORE_FILES = 0x80000006
    UNSUCCESSFUL = 0xC0000001
    NOT_IMPLEMENTED = 0xC0000002
    INVALID_INFO_CLASS = 0xC0000003
    INFO_LENGTH_MISMATCH = 0xC0000004
    INVALID_PARAMETER = 0xC000000D
    NO_SUCH_FILE = 0xC000000F
    INVALID_DEVICE_REQUEST = 0xC0000010
    END_OF_FILE = 0xC0000011
    MORE_PROCESSING_REQUIRED = 0xC0000016
    NO_MEMORY = 0xC0000017
    ACCESS_DENIED = 0xC0000022
    BUFFER_TOO_SMALL = 0xC0000023
    OBJECT_NAME_INVALID = 0xC0000033
    OBJECT_NAME_NOT_FOUND = 0xC0000034
    OBJECT_NAME_COLLISION = 0xC0000035
    OBJECT_PATH_NOT_FOUND = 0xC000003A
    SHARING_VIOLATION = 0xC0000043
    FILE_LOCK_CONFLICT = 0xC0000054
    LOCK_NOT_GRANTED = 0xC0000055
    DELETE_PENDING = 0xC0000056
    LOGON_FAILURE = 0xC000006D
    RANGE_NOT_LOCKED = 0xC000007E
    DISK_FULL = 0xC000007F
    INSUFFICIENT_RESOURCES = 0xC000009A
    MEDIA_WRITE_PROTECTED = 0xC00000A2
    PIPE_BUSY = 0xC00000AE
    FILE_IS_A_DIRECTORY = 0xC00000BA
    NOT_SUPPORTED = 0xC00000BB
    NETWORK_NAME_DELETED = 0xC00000C9
    BAD_NETWORK_NAME = 0xC00000CC
    REQUEST_NOT_ACCEPTED = 0xC00000D0
    NOT_SAME_DEVICE = 0xC00000D4
    PIPE_EMPTY = 0xC00000D9
    INVALID_OPLOCK_PROTOCOL = 0xC00000E3
    DIRECTORY_NOT_EMPTY = 0xC0000101
    NOT_A_DIRECTORY = 0xC0000103
    CANCELLED = 0xC0000120
    CANNOT_DELETE = 0xC0000121
    FILE_CLOSED = 0xC0000128
    IO_DEVICE_ERROR = 0xC0000185
    INVALID_LOCK_RANGE = 0xC00001A1
    USER_SESSION_DELETED = 0xC0000203
    NOT_FOUND = 0xC0000225
    ACCOUNT_LOCKED_OUT = 0xC0000234


# The statuses that lines of the machines have by name (docs/FORMATS.md).
_NAMED = (Status.UNSUCCESSFUL, Status.INVALID_PARAMETER, Status.ACCESS_DENIED, Status.OBJECT_NAME_NOT_FOUND,
          Status.SHARING_VIOLATION, Status.INSUFFICIENT_RESOURCES, Status.REQUEST_NOT_ACCEPTED, Status.FILE_CLOSED)
_BY_WORD = {f"STATUS_{it.name}": int(it) for it in _NAMED}
_WORDS = {status: word for word, status in _BY_WORD.items()}


def status_word(status: int) -> str:
    """A status as lines of the machines have it: eight of them by name, any other as eight digits.

    >>> status_word(Status.SHARING_VIOLATION), status_word(Status.NO_MEMORY)
    ('STATUS_SHARING_VIOLATION', 'c0000017')
    """
    return _WORDS.get(status, f"{status:08x}")


def read_status(word: str) -> int:
    """The status that a line of the machines has as this word.

    >>> read_status("STATUS_FILE_CLOSED") == read_status("c0000128") == Status.FILE_CLOSED
    True
    """
    if word in _BY_WORD:
        return _BY_WORD[word]
    if not re.fullmatch("[0-9a-fA-F]{8}", word):
        raise ValueError(f"{word!r} is no status")
    return int(word, 16)
