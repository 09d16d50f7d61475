"""Who asks a server: a user of a domain, by a password or a ticket, none of which has to stand on a command line."""
from __future__ import annotations

import getpass
import re
import sys
from collections.abc import Mapping
from dataclasses import dataclass, replace
from typing import Callable

from smblease.drive.faults import DriveFault, Usage

# As smbclient has it.
PASSWORD_VARIABLE = "PASSWD"
FIELDS = ("username", "password", "domain")


@dataclass(frozen=True)
class Login:
    user: str
    password: str = ""
    domain: str = ""
    by_ticket: bool = False


def user_of(text: str) -> tuple[str, str, str | None]:
    """Domain, user and password of `DOMAIN\\USER%PASSWORD`, of which the user has to be there; the stroke may be `/` too."""
    name, percent, password = text.partition("%")
    domain, _, user = name.replace("/", "\\").rpartition("\\")
    return domain, user, password if percent else None


def file_of(path: str) -> dict[str, str]:
    """What a file of credentials has, as smbclient reads them: lines `username = ..`, `password = ..` and `domain = ..`."""
    try:
        with open(path, encoding="utf-8", errors="replace") as text:
            found = [re.fullmatch(r"\s*(\w+)\s*=\s?(.*?)\r?\n?", line) for line in text]
    except OSError as fault:
        raise DriveFault(f"{path}: {fault.strerror}") from None
    return {it[1].lower(): it[2] for it in found if it and it[1].lower() in FIELDS}


def asked_for(user: str) -> str | None:
    """A password from the terminal, where there is one."""
    return getpass.getpass(f"Password of {user}: ") if sys.stdin is not None and sys.stdin.isatty() else None


def login_of(user: str | None, file: str | None, by_ticket: bool, variables: Mapping[str, str],
             ask: Callable[[str], str | None] = asked_for) -> Login:
    """Who asks, by what the command line says; a password is looked for there, then in the file, in the environment, and last
    asked for."""
    if user is not None and file is not None:
        raise Usage("--user and --authentication-file both say who asks: one is enough")
    fields = file_of(file) if file is not None else {}
    domain, name, password = user_of(fields.get("username", "") if user is None else user)
    login = Login(name, domain=domain or fields.get("domain", ""), by_ticket=by_ticket)
    if by_ticket:
        return login
    if not name:
        raise Usage("--server needs who asks: --user [DOMAIN\\]USER[%PASSWORD], or --authentication-file FILE with a username")
    for known in (password, fields.get("password"), variables.get(PASSWORD_VARIABLE), ask(name)):
        if known is not None:
            return replace(login, password=known)
    raise Usage(f"the password of {name} is needed: in a file (--authentication-file), in the variable {PASSWORD_VARIABLE}, "
                "or at a terminal")
