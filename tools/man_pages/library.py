"""smblease(3), of docs/C.md and what the headers say at their top; and a page for each family of functions."""
from __future__ import annotations

import re
import textwrap
from typing import Iterator, NamedTuple

from man_pages.headers import HEADERS, Piece, pieces_of
from man_pages.writing import TOP, Page, literal, see_also

# The first function of each family, in the order of the headers, and what the family is about.
FAMILIES = {
    "smblease_version": "the version of the library that is running",
    "smblease_fault_status": "what a fault is called, and the status that it is answered with",
    "smblease_read_create_ask": "read the create contexts of a request or a response",
    "smblease_read_context": "read, find or append one create context of any name",
    "smblease_message_kind": "which lease break message some bytes are, and what it says",
    "smblease_write_create_ask": "write the create contexts of a request or a response",
    "smblease_write_notification": "write lease break messages",
    "smblease_acknowledgment_due": "the acknowledgment that a lease break asks for",
    "smblease_opens_conflict": "what is true of opens and of lease states",
    "smblease_client_new": "make and free a client, and what happens to its connection",
    "smblease_client_open": "what an application asks of a client",
    "smblease_client_take_created": "give a client what its server sent",
    "smblease_client_answer": "what a call of a client gave out",
    "smblease_client_belief": "what a client believes of a lease, and its lease keys",
    "smblease_files_add": "the files that a server begins with",
    "smblease_server_new": "make and free a server",
    "smblease_server_join": "what happens to a server's connections and timers",
    "smblease_server_receive_create": "give a server the requests of a client",
    "smblease_server_out_count": "what a call of a server gave out",
    "smblease_server_allowed": "what is true of a server's leases, opens and files",
    "smblease_manager_new": "make and free a manager of leases",
    "smblease_manager_join": "what happens to connections and timers that a manager knows of",
    "smblease_manager_create": "give a manager the requests of a client",
    "smblease_manager_decision_count": "what a call of a manager decided",
    "smblease_manager_connected": "what is true of a manager's leases and opens",
    "smblease_manager_lease": "the lease that a manager has of a key",
    "smblease_manager_list_opens": "list the opens of a manager",
    "smblease_versions_new": "make and free what is known of leases of version 2",
    "smblease_versions_asked": "tell what clients ask of a manager, for leases of version 2",
    "smblease_versions_follow": "what is sent for a manager's decision, for leases of version 2",
    "smblease_client_versions_new": "make and free what a client knows of leases of version 2",
    "smblease_client_versions_ask": "what a client sends, for leases of version 2",
    "smblease_client_versions_answered": "what a client's machine takes, of leases of version 2",
}
# The comment on what is common to the structs of a header.
COMMON = "/* In the structs below"
# Whom a comment without declarations speaks of, where that isn't all that comes after it.
SPEAKS_OF = {"Readers": "_read_", "Writers": "_write_"}


class Family(NamedTuple):
    first: str
    # what is said of all of them, and each with its comment
    remarks: list[Piece]
    pieces: list[Piece]

    @property
    def functions(self) -> list[str]:
        return [name for it in self.pieces for name in it.functions]


def families_of(header: str) -> Iterator[Family]:
    """Those of a header. A comment without declarations is a remark on what comes after it, until the next one or a heading."""
    [_, *pieces] = pieces_of(header)
    remarks: list[Piece] = []
    made: list[Family] = []
    for piece in pieces:
        if not piece.functions:
            if piece.is_heading or not piece.code.strip():
                remarks = [] if piece.is_heading else [piece]
            continue
        if piece.functions[0] in FAMILIES:
            made.append(Family(piece.functions[0], remarks, []))
        made[-1].pieces.append(piece)
    for family in made:
        said = [it for it in family.remarks if _speaks_of(it, family.functions)]
        yield family._replace(remarks=said)


def _speaks_of(remark: Piece, functions: list[str]) -> bool:
    word = SPEAKS_OF.get(remark.text.partition("\\")[0])
    return word is None or any(word in it for it in functions)


def types_of(family: Family, declared: list[Piece]) -> list[Piece]:
    """The declarations of all types and numbers that its functions speak of, by way of one another too."""
    found: list[Piece] = []
    wanted = {name for it in [*family.pieces, *family.remarks] for name in it.mentioned}
    while True:
        new = [it for it in declared if it not in found and it.names & wanted]
        if not new:
            return [it for it in declared if it in found]
        found += new
        wanted = {name for it in new for name in it.mentioned}


def described(piece: Piece) -> str:
    """What a comment says, below the functions that it speaks of."""
    names = ", ".join(f"**{literal(it)}**()" for it in piece.functions)
    return f"{names}\n:   " + textwrap.indent(piece.text, "    ").lstrip() + "\n"


def family_page(family: Family, declared: list[Piece]) -> Page:
    names = ", ".join(map(literal, family.functions))
    header = family.pieces[0].header
    synopsis = f"    #include <{header}>\n\n" + "\n".join(it.listing for it in family.pieces)
    types = types_of(family, declared)
    told = [f"{it.text}\n" for it in family.remarks] + [described(it) for it in family.pieces]
    headers = {it.header for it in types}
    common = [f"{it.text}\n" for header in headers for it in pieces_of(header) if it.comment.startswith(COMMON)]
    listed = common + [it.listing if it.is_general else f"{it.listing}\n{it.text}\n" for it in types]
    keep = f"**smblease**(3) says, of {literal(header)}, what a caller has to keep to.\n"
    return Page(family.first, 3, "\n".join(
        ["# NAME\n", f"{names} - {literal(FAMILIES[family.first])}\n", "# SYNOPSIS\n", synopsis, "# DESCRIPTION\n", *told, keep,
         *(["# TYPES AND NUMBERS\n", *listed] if listed else []), see_also("smblease(3)")]))


def library_page(families: list[Family]) -> Page:
    page = (TOP / "docs" / "C.md").read_text(encoding="utf-8").split("\n", 1)[1]
    page = re.sub(r"^## (.*)$", lambda found: f"# {found[1].upper()}", page, flags=re.M)
    name = ("# NAME\n\nsmblease - SMB 2.1 leases: messages, a manager of leases, client and server"
            " machines\n\n# SYNOPSIS\n\n")
    synopsis = "".join(f"    #include <{it}>\n" for it in HEADERS) + "\n`cc .. $(pkg-config --cflags --libs smblease)`\n\n"
    tops = [f"# THE HEADER {literal(it.upper())}\n\n{next(pieces_of(it)).text}\n" for it in HEADERS]
    listed = [f"**{literal(it.first)}**(3)\n:   {literal(FAMILIES[it.first])}: "
              f"{literal(', '.join(name.removeprefix('smblease_') for name in it.functions))}\n" for it in families]
    return Page("smblease", 3, "\n".join(
        [name + synopsis + "# DESCRIPTION", page, "# FUNCTIONS\n", "Each name begins with smblease\\_, and has a page.\n",
         *listed, *tops, see_also("leasecheck(1)")]))


def library_pages() -> Iterator[tuple[Page, list[str]]]:
    """Each page, and the other names by which it is found."""
    declared = [it for header in HEADERS for it in pieces_of(header) if not it.functions and it.names]
    families = [it for header in HEADERS for it in families_of(header)]
    yield library_page(families), []
    for family in families:
        yield family_page(family, declared), family.functions[1:]
