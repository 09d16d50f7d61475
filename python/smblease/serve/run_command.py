"""serve/run: the proved server on a port."""
from __future__ import annotations

import argparse
import contextlib
import logging
import os
import resource
import shutil
import signal
import sys
from collections.abc import Iterator, Mapping, Sequence
from typing import TYPE_CHECKING

from smblease.drive.called import need, parser_of
from smblease.drive.commands import NOT_DRIVEN, SAFE, UNSAFE, ended, rules_of
from smblease.drive.faults import DriveFault, Usage
from smblease.program import find_program, judge
from smblease.serve.chance import Chance, SeededChance
from smblease.serve.connection import Connection
from smblease.serve.control import controlled
from smblease.serve.dialects import DEFAULT, NAMES, Dialects, dialects_of
from smblease.serve.disk import Disk
from smblease.serve.disk_bytes import LARGEST
from smblease.serve.event_loop import Loop, ending_signals
from smblease.serve.names import FORBIDDEN
from smblease.serve.namespace import Namespace
from smblease.serve.record import Record
from smblease.serve.request_log import RequestLog
from smblease.serve.served_folder import served_folders
from smblease.serve.server import Server
from smblease.serve.settings import Settings
from smblease.serve.streams import Streams

if TYPE_CHECKING:
    from smblease.serve.named_user import NamedUser as User

LOG = logging.getLogger("serve")
RULES = "by-key,whole"
# (smbclient and the commands of drive/ have the same)
PASSWORD_VARIABLE = "PASSWD"
EPILOG = """It prints `port N`, and serves until it is ended by SIGINT, SIGTERM, SIGHUP or SIGQUIT. With --record it then prints
the verdict of the record. docs/SERVE.md says what is the proved manager's and what the shell's, and which rules a record can
break.

Exit status: 0 it was ended, and the record, if any, is safe; 1 it couldn't begin or go on; 2 the command line is
refused; 3 the record is unsafe."""


def parser() -> argparse.ArgumentParser:
    made = parser_of("serve/run", "Serves SMB 2.1, or other dialects, by the proved manager of leases, on a port.", EPILOG)
    made.add_argument("--port", type=int, required=True, metavar="N", help="the port; 0 for a free one")
    made.add_argument("--share", required=True, metavar="NAME", help="the name of the share")
    made.add_argument("--address", default="127.0.0.1", metavar="A", help="where to listen (127.0.0.1)")
    made.add_argument("--folder", metavar="DIR",
                      help="serve a copy of this folder, or an empty folder where none is named; links in it aren't followed")
    made.add_argument("--writable", action="store_true", help="serve the folder itself, whose files then change")
    made.add_argument("--limit", type=int, default=LARGEST, metavar="BYTES", help="the most bytes that a file is given")
    made.add_argument("--record", metavar="FILE", help="write the record there, and have it judged at the end")
    made.add_argument("--user", metavar="USER[%PASSWORD]",
                      help="a user, whose sessions are signed, in place of guests; needs impacket. A password that isn't there "
                           f"is taken from a file, else from the variable {PASSWORD_VARIABLE}")
    made.add_argument("--password-file", metavar="FILE", help="the user's password, which is the first line of this file")
    made.add_argument("--guests", action="store_true", help="let guests in too; the user's client then chooses whether to sign")
    made.add_argument("--min", default=DEFAULT, metavar="DIALECT", help=f"the least dialect: {', '.join(NAMES)} ({DEFAULT})")
    made.add_argument("--max", default=DEFAULT, metavar="DIALECT",
                      help=f"the greatest dialect ({DEFAULT}); those of 3 need cryptography")
    made.add_argument("--encrypt", action="store_true",
                      help="refuse what isn't encrypted; goes with --user, and a --max of 3.0 or more")
    made.add_argument("--break-timer", type=float, default=35.0, metavar="S", help="seconds that a break is waited for (35)")
    made.add_argument("--durable-timer", type=float, default=960.0, metavar="S",
                      help="seconds that a durable open is kept without a connection (960)")
    made.add_argument("--session-timer", type=float, default=30.0, metavar="S",
                      help="seconds that a connection is kept without a session (30)")
    made.add_argument("--rules", default=RULES, metavar="RULES",
                      help="by-client or by-key, a comma, and as-free or whole; or profile, the rules of docs/PROFILE.md "
                           f"({RULES}, as Windows and Samba have it)")
    made.add_argument("--seed", type=int, metavar="N",
                      help="draw session ids, the server's id, challenges and times from it, so that a run can be had again")
    made.add_argument("--control", type=int, metavar="FD", help="read lines there that steer the server (docs/CLIENT_TESTS.md)")
    made.add_argument("--control-socket", metavar="PATH", help="the same over a Unix socket of this name")
    made.add_argument("--script", metavar="FILE", help="do the lines of this file, each as soon as that can be done")
    made.add_argument("--leasecheck", metavar="PATH", default=find_program(), help="the program leasecheck")
    made.add_argument("--log", metavar="FILE", help="write a line there for each request that is answered; - is standard error")
    made.add_argument("--json", action="store_true", help="with --log: make each line an object of JSON")
    made.add_argument("--verbose", action="store_true", help="say more on standard error")
    return made


def password_of(name: str, file: str | None, variables: Mapping[str, str]) -> str:
    """A user's password, where it doesn't stand on the command line: the first line of a file, else a variable."""
    if file is None:
        if not variables.get(PASSWORD_VARIABLE):
            raise Usage(f"--user is USER%PASSWORD, or the password of {name} is in --password-file FILE or in the variable "
                        f"{PASSWORD_VARIABLE}")
        return variables[PASSWORD_VARIABLE]
    try:
        with open(file, encoding="utf-8") as lines:
            found = lines.readline().rstrip("\r\n")
    except OSError as fault:
        raise DriveFault(f"{file}: {fault.strerror}") from None
    except UnicodeDecodeError:
        raise DriveFault(f"{file}: no text of UTF-8") from None
    if not found:
        raise DriveFault(f"{file}: no password in the first line")
    return found


def user_of(user: str | None, file: str | None, variables: Mapping[str, str]) -> User | None:
    if user is None:
        if file is not None:
            raise Usage("--password-file goes with --user")
        return None
    name, percent, password = user.partition("%")
    if not name:
        raise Usage("--user is USER%PASSWORD")
    if percent and file is not None:
        raise Usage("--user USER%PASSWORD and --password-file both have a password: one is enough")
    if not percent:
        password = password_of(name, file, variables)
    # Guests are served without that package.
    need("impacket", "--user")
    from smblease.serve.named_user import NamedUser  # pylint: disable=import-outside-toplevel
    return NamedUser(name, password)


def dialects(arguments: argparse.Namespace) -> Dialects:
    found = dialects_of(arguments.min, arguments.max)
    if arguments.encrypt and (arguments.user is None or arguments.guests):
        raise Usage("--encrypt goes with --user, and without --guests: guests have no keys")
    if arguments.encrypt and not found.has_3:
        raise Usage("--encrypt goes with a --max of 3.0 or more")
    if found.has_3:
        # Those of 2 are served without that package.
        need("cryptography", f"--max {arguments.max}")
    return found


def settings_of(arguments: argparse.Namespace) -> Settings:
    if not 0 <= arguments.port <= 65535:
        raise Usage("--port is from 0 to 65535")
    if not arguments.share or FORBIDDEN & set(arguments.share) or "\\" in arguments.share:
        raise Usage("--share is a name")
    if not all(0 < it < 1e9 for it in (arguments.break_timer, arguments.durable_timer, arguments.session_timer)):
        raise Usage("timers are more than 0 seconds")
    if not 0 < arguments.limit <= LARGEST:
        raise Usage(f"--limit is from 1 to {LARGEST}")
    if arguments.writable and arguments.folder is None:
        raise Usage("--writable goes with --folder")
    if arguments.json and arguments.log is None:
        raise Usage("--json goes with --log")
    if arguments.seed is not None and arguments.seed < 0:
        raise Usage("--seed is a number from 0 on")
    if arguments.guests and arguments.user is None:
        raise Usage("--guests goes with --user; without one all are guests")
    return Settings(arguments.share, user_of(arguments.user, arguments.password_file, os.environ),
                    arguments.break_timer, arguments.durable_timer, arguments.session_timer,
                    arguments.guests or arguments.user is None, rules_of(arguments.rules), arguments.limit,
                    Chance() if arguments.seed is None else SeededChance(arguments.seed), dialects(arguments), arguments.encrypt)


def allow_descriptors() -> None:
    """As many open files as may be."""
    most = resource.getrlimit(resource.RLIMIT_NOFILE)[1]
    with contextlib.suppress(ValueError, OSError):
        resource.setrlimit(resource.RLIMIT_NOFILE, (most, most))


def end_early(_: int, __: object) -> None:
    """Before connections are taken; what is temporary is removed."""
    sys.exit(NOT_DRIVEN)


@contextlib.contextmanager
def request_log(arguments: argparse.Namespace) -> Iterator[RequestLog | None]:
    if arguments.log is None:
        yield None
        return
    with contextlib.closing(RequestLog(arguments.log, arguments.json)) as made:
        yield made


def serve(arguments: argparse.Namespace) -> int:
    settings = settings_of(arguments)
    for number in {signal.SIGHUP, signal.SIGQUIT}.intersection(ending_signals()):
        signal.signal(number, end_early)
    if arguments.record and not shutil.which(arguments.leasecheck):
        raise DriveFault(f"{arguments.leasecheck}: no program, which --record needs")
    allow_descriptors()
    server: Server
    loop = Loop()
    with contextlib.closing(loop.events):
        port = loop.listen(arguments.address, arguments.port, lambda: Connection(server))
        with contextlib.closing(Record(arguments.record)) as record, request_log(arguments) as log, \
                served_folders(arguments.folder, arguments.writable) as folders, \
                contextlib.closing(Disk(folders.share)) as disk, contextlib.closing(Disk(folders.streams)) as streams:
            server = Server(settings, loop.events, record, Namespace(disk, Streams(streams), settings.chance.files()))
            server.log = log
            with controlled(server, arguments.control, arguments.control_socket, arguments.script):
                loop.heed_signals()
                print(f"port {port}", flush=True)
                loop.run()
    return verdict(arguments)


def verdict(arguments: argparse.Namespace) -> int:
    if not arguments.record:
        return SAFE
    with open(arguments.record, encoding="utf-8") as stream:
        found = judge(arguments.leasecheck, stream.read())
    print(found.text)
    return SAFE if found.is_safe else UNSAFE if found.rule is not None else NOT_DRIVEN


def main(words: Sequence[str] | None = None) -> int:
    return ended(parser(), serve, words)


if __name__ == "__main__":
    sys.exit(main())
