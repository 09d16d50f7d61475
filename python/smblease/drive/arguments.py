"""What the command lines of drive/run, drive/explore and drive/compare have in common."""
from __future__ import annotations

import argparse
import os
from collections.abc import Callable
from dataclasses import replace

from smblease.drive.called import name_of, need
from smblease.drive.commands import rules_of
from smblease.drive.faults import Usage
from smblease.drive.login import login_of
from smblease.drive.place import DRIVEN, Place, Server
from smblease.drive.runner import Runner
from smblease.drive.servers import NamedServer, PrivateServer
from smblease.drive.slots import Slots
from smblease.program import find_program
from smblease.serve.dialects import Dialect, dialect_of, name_of as dialect_name, smbd_name
from smblease.serve.server_process import DrivenServer
from smblease.values import Rules

# Seconds that a server's own timer of a break is waited for, and how many runs may wait for each one that goes on.
BREAK_TIME = 40.0
EXPIRING = 8


def server_arguments(parser: argparse.ArgumentParser) -> None:
    parser.add_argument("--smbd", action="store_true", help="a private smbd, started afresh for each schedule and ended")
    parser.add_argument("--served", action="store_true",
                        help=f"the proved server ({name_of('serve/run')}), started and ended likewise")
    parser.add_argument("--rules", default=str(Rules()), metavar="RULES",
                        help="the rules of the proved server, and of what its record is compared with: by-client or by-key, a "
                             "comma, and as-free or whole; or profile, which are those that it has without this word")
    parser.add_argument("--expect", metavar="RULES",
                        help="the server claims to keep these rules, so its record has to be that of `leasecheck replay` under "
                             "them (the words are those of --rules)")
    parser.add_argument("--server", metavar="HOST:PORT", help="a server that is there, in place of a private one")
    parser.add_argument("--share", metavar="NAME", help="its share")
    parser.add_argument("--user", metavar="USER%PASSWORD",
                        help="who asks it; a domain stands before it, as in OFFICE/games. A password that isn't there is taken "
                             "from the variable PASSWD, or asked for at a terminal")
    parser.add_argument("-A", "--authentication-file", metavar="FILE",
                        help="the same in lines `username = ..`, `password = ..` and `domain = ..`, as smbclient has it")
    parser.add_argument("--kerberos", action="store_true", help="a ticket says who asks, of the cache that KRB5CCNAME names")
    parser.add_argument("--dialect", metavar="DIALECT",
                        help=f"the one that is spoken: {', '.join(map(dialect_name, DRIVEN))}. Without this word it is 3.1.1, "
                             "and with --server the greatest that it has; 3.0 and more need cryptography")
    parser.add_argument("--encrypt", action="store_true",
                        help="encrypt all messages, which goes with dialects of 3, also where neither server nor share wants it")
    parser.add_argument("--break-time", metavar="SECONDS", type=float,
                        help="how long `expire` waits for a break timer of a server that was named (40)")
    parser.add_argument("--smbd-log", metavar="FILE", help="keep the log of the private smbd there, at level 10")
    parser.add_argument("--leasecheck", metavar="PATH", default=find_program(), help="the program leasecheck")
    parser.add_argument("--skip", action="store_true", help="leave out events that can't be driven")
    parser.add_argument("--verbose", action="store_true", help="say on standard error what each event did")


def runner_of(arguments: argparse.Namespace, slots: Slots | None = None) -> Runner:
    """How the schedules are run that a command line asks for; `slots` has the one that a run lends while it waits for a timer."""
    need("impacket")
    expect = None if arguments.expect is None else rules_of(arguments.expect, "--expect")
    return Runner(arguments.leasecheck, _server_maker(arguments, slots), arguments.skip, rules=rules_of(arguments.rules),
                  expect=expect, stays=bool(arguments.server))


def server_text(arguments: argparse.Namespace) -> str:
    """Which server it is, as the head of a table has it."""
    if arguments.server:
        return f"--server {arguments.server} --share {arguments.share}"
    server = "--smbd" if arguments.smbd else f"--served --rules {rules_of(arguments.rules)}"
    return f"{server} --dialect {dialect_name(dialects_of(arguments)[-1])}"


def dialects_of(arguments: argparse.Namespace) -> tuple[Dialect, ...]:
    """Those that are offered, of which the greatest stands last."""
    if arguments.dialect is None:
        found = DRIVEN if arguments.server else (Dialect.SMB_3_1_1,)
    else:
        found = (dialect_of("--dialect", arguments.dialect),)
    if found[-1] not in DRIVEN:
        raise Usage("--dialect is 2.1 or more: 2.0.2 has no leases")
    if found[-1] >= Dialect.SMB_3_0:
        # Those of 2 are driven without that package.
        need("cryptography", "--dialect 3.0 or more")
    elif arguments.encrypt:
        raise Usage("--encrypt goes with --dialect 3.0 or more")
    return found


def options_text(arguments: argparse.Namespace) -> str:
    """The options that change what a schedule comes to, or what its row says."""
    expect = None if arguments.expect is None else str(rules_of(arguments.expect, "--expect"))
    named = {"--expect": expect, "--break-time": arguments.break_time, "--shard": arguments.shard,
             "--dialect": arguments.dialect if arguments.server else None, "--allow": " ".join(sorted(arguments.allow)) or None}
    alone = {"--skip": arguments.skip, "--encrypt": arguments.encrypt, "--no-shrink": arguments.no_shrink}
    return " ".join([f"{word} {value}" for word, value in named.items() if value is not None]
                    + [word for word, is_there in alone.items() if is_there])


def _server_maker(arguments: argparse.Namespace, slots: Slots | None) -> Callable[[], Server]:
    if [arguments.smbd, arguments.served, bool(arguments.server)].count(True) != 1:
        raise Usage("one of --smbd, --served and --server is needed, and one alone")
    of_a_named_one = (arguments.share, arguments.user, arguments.break_time, arguments.authentication_file)
    if not arguments.server and (arguments.kerberos or any(it is not None for it in of_a_named_one)):
        raise Usage("--share, --user, --authentication-file, --kerberos and --break-time are of a server that --server names")
    if not arguments.served and rules_of(arguments.rules) != Rules():
        raise Usage("--rules are of the proved server, which --served starts")
    dialects = dialects_of(arguments)
    if arguments.smbd:
        return lambda: PrivateServer(arguments.smbd_log, smbd_name(dialects[-1]), encrypts=arguments.encrypt)
    if arguments.smbd_log:
        raise Usage("--smbd-log is of a private smbd")
    if arguments.served:
        return lambda: DrivenServer(arguments.leasecheck, None, rules_of(arguments.rules), dialects[-1], arguments.encrypt)
    place = replace(_place(arguments), dialects=dialects, encrypts=arguments.encrypt)
    break_time = BREAK_TIME if arguments.break_time is None else arguments.break_time
    if not 0 <= break_time < 1e9:
        raise Usage("--break-time is a number of seconds")
    return lambda: NamedServer(place, break_time, slots)


def _place(arguments: argparse.Namespace) -> Place:
    host, colon, port = arguments.server.rpartition(":")
    if not colon or not host or not port.isdigit() or not 0 < int(port) < 65536:
        raise Usage("--server is HOST:PORT")
    if not arguments.share:
        raise Usage("--server needs --share NAME")
    login = login_of(arguments.user, arguments.authentication_file, arguments.kerberos, os.environ)
    return Place(host.strip("[]"), int(port), arguments.share, login.user, login.password, login.domain, login.by_ticket)
