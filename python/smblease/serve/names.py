"""Names as SMB has them, and which names of the disk can be sent."""
from __future__ import annotations

from functools import lru_cache

from smblease import Status
from smblease.serve.status_error import StatusError

FORBIDDEN = set('"*/<>?|') | {chr(code) for code in range(32)}
LONGEST = 255
STREAM_TYPE = ":$DATA"
FINAL_SIGMA, SIGMA = "\u03c2", "\u03a3"


def text_of(data: bytes) -> str:
    """A name as it comes on the wire. Half of a surrogate pair is no character."""
    try:
        return data.decode("utf-16le")
    except UnicodeDecodeError:
        raise StatusError(Status.OBJECT_NAME_INVALID) from None


@lru_cache(4096)
def folded(name: str) -> str:
    """A name with case left out, as upcase tables have it: one code unit for one, and only where both are letters of one pair.
    What is beyond the basic plane is left as it is, and nothing is composed or taken apart."""
    return name.upper() if name.isascii() else "".join(map(_upper, name))


@lru_cache(65536)
def _upper(letter: str) -> str:
    if letter == FINAL_SIGMA:
        return SIGMA
    upper = letter.upper()
    is_pair = len(upper) == 1 and letter <= "\uffff" and upper.lower() == letter
    return upper if is_pair else letter


def path_of(name: str) -> str:
    """A name as it comes, without the strokes around it. A stream has the name of its file and a colon before its own."""
    path = name.strip("\\").replace("::$DATA", "")
    if path.count(":") == 2 and path.upper().endswith(STREAM_TYPE):
        path = path[:-len(STREAM_TYPE)]
    parts = path.split("\\")
    if path and any(not part or part in (".", "..") or len(part) > LONGEST or FORBIDDEN & set(part) for part in parts):
        raise StatusError(Status.OBJECT_NAME_INVALID)
    if ":" in path and (":" in "".join(parts[:-1]) or not all(parts[-1].split(":")) or parts[-1].count(":") > 1):
        raise StatusError(Status.OBJECT_NAME_INVALID)
    return path


@lru_cache(1024)
def _short_path(data: bytes) -> str:
    return path_of(text_of(data))


def path_on_wire(data: bytes) -> str:
    """A path as it comes on the wire. Those that are short and come again and again are known."""
    return _short_path(data) if len(data) <= 2 * LONGEST else path_of(text_of(data))


def sent_name(name: bytes) -> str | None:
    """A name of the disk as clients are sent it, or none where they can't be: it has to be UTF-8, without what SMB forbids."""
    try:
        text = name.decode("utf-8")
    except UnicodeDecodeError:
        return None
    return None if (FORBIDDEN | {"\\", ":"}) & set(text) else text


def split(path: str) -> tuple[str, str]:
    """The folder of a path, and the name in it."""
    folder, _, name = path.rpartition("\\")
    return folder, name


def joined(folder: str, name: str) -> str:
    return f"{folder}\\{name}" if folder else name
