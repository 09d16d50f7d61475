"""What `leasecheck capture` says of captures, as the lines that drive/capture makes of them."""
from __future__ import annotations

import subprocess
from collections.abc import Sequence
from pathlib import Path

import pytest

from smblease.drive.capture_lines import lines_of
from smblease.drive.packets import read_capture
from smblease.drive.tshark import ANY_PORT
from tests import needs
from tests.drive.commands import ran
from tests.drive.hand_made import Made
from tests.drive.judging import NOTHING_JUDGED, SAFE, UNSAFE, judged
from tests.drive.scenarios import SCENARIOS
from tests.paths import TOP

pytestmark = needs.program("tshark")
CAPTURES = TOP / "drive" / "captures"
WORDS = {SAFE: "safe", UNSAFE: "unsafe", NOTHING_JUDGED: "nothing judged"}
OF_21 = {"two_clients_share_a_file": SAFE, "lease_outlives_its_open": UNSAFE, "key_of_another_file_before": SAFE,
         "two_servers_of_one_name": SAFE, "contexts_that_cant_be_read": NOTHING_JUDGED}
# those of dialect 3.1.1, with leases of version 2
OF_311 = {"smbclient_while_it_is_open": SAFE, "smbtorture_v2_leases": SAFE, "lease_outlives_its_open_311": UNSAFE,
          "encrypted_smbtorture": SAFE, "encrypted_compounds": SAFE, "encrypted_lease_outlives_its_open": UNSAFE}
KEPT = {**OF_21, **OF_311}
ENCRYPTED = tuple(sorted(it.stem for it in CAPTURES.glob("*.keys")))
# The files on which leases were granted, each with how many clients (ClientGuids) took any.
FILES = {"smbclient_while_it_is_open": {"report.txt": 2}, "lease_outlives_its_open_311": {"file-1": 2},
         "encrypted_lease_outlives_its_open": {"file-1": 2}, "encrypted_compounds": {"a": 1},
         "encrypted_smbtorture": {"lease_v2_epoch2.dat": 1, "lease_v2_complex2.dat": 1},
         "smbtorture_v2_leases": {"lease_v2_epoch1.dat": 1, "lease_v2_epoch2.dat": 1, "lease_v2_epoch3.dat": 1,
                                  "v2_lease_breaking3.dat": 1, "lease_v2_complex2.dat": 1}}
# The packets of the grants that clash: of RWH, while another client was granted RH and wasn't sent a break.
CLASHES = {"lease_outlives_its_open": 134, "lease_outlives_its_open_311": 142, "encrypted_lease_outlives_its_open": 145}
ID, KEY = "1122334455667788", "00112233445566778899aabbccddeeff"
SIDES = pytest.mark.parametrize("side", ["client", "server"])


def text_of(path: Path) -> str:
    return "".join(f"{line}\n" for line in lines_of(read_capture(str(path), [])))


def keys_of(name: str) -> list[str]:
    """The keys of the sessions of a capture, as drive/capture takes them."""
    path = CAPTURES / f"{name}.keys"
    return path.read_text(encoding="ascii").split() if path.exists() else []


def of_kept(name: str, keys: list[str]) -> str:
    """The lines of a kept capture."""
    words = [word for it in keys for word in ("--session-key", it)]
    had = ran("capture", [CAPTURES / f"{name}.pcapng", "--lines", *words])
    assert (had.status, had.faults) == (SAFE, "")
    return had.out


def shown(name: str, which: str, fields: Sequence[str]) -> list[list[str]]:
    """What tshark shows of those packets of a kept capture for which the filter holds, a row for each."""
    keys = [word for it in keys_of(name) for word in ("-o", f'uat:smb2_seskey_list:{it.replace(":", ",")},"",""')]
    words = ["tshark", "-r", str(CAPTURES / f"{name}.pcapng"), "-X", f"lua_script:{ANY_PORT}", *keys, "-Y", which, "-T", "fields"]
    words += [word for it in fields for word in ("-e", it)]
    return [line.split("\t") for line in subprocess.run(words, capture_output=True, text=True, check=True).stdout.splitlines()]


@SIDES
@pytest.mark.parametrize("name", KEPT)
def test_kept(name: str, side: str, program: str) -> None:
    had = judged(program, of_kept(name, keys_of(name)), side)
    assert (had.status, had.said[0]) == (KEPT[name], WORDS[KEPT[name]])


@SIDES
@pytest.mark.parametrize("name", CLASHES)
def test_packet_of_an_unsafe_one(name: str, side: str, program: str) -> None:
    """At the client it is that of the last grant, which clashes; at the server that of the first request by its FileId."""
    number = CLASHES[name]
    clash = {"client": f"frame.number == {number}", "server": f"smb2.flags.response == 0 && smb2.fid && frame.number > {number}"}
    packet, time = shown(name, clash[side], ["frame.number", "frame.time_relative"])[0]
    said = judged(program, of_kept(name, keys_of(name)), side).said
    assert len([line for line in said if f"unsafe, packet {packet} at {time}" in line]) == 1


@SIDES
@pytest.mark.parametrize("name", OF_311)
def test_files_and_clients(name: str, side: str, program: str) -> None:
    found: dict[str, int] = {}
    for line in judged(program, of_kept(name, keys_of(name)), side).said:
        if line.startswith("file "):
            path, _, rest = line.rpartition(": ")
            found[path.rpartition("\\")[2]] = len(set(rest.split(", ")[2 if "unsafe" in rest else 1:]))
    assert found == FILES[name]


@pytest.mark.parametrize("name", OF_311)
def test_what_it_holds(name: str) -> None:
    """The dialect is 3.1.1, and leases were granted in contexts of version 2, which alone have a parent key."""
    answers = shown(name, "smb2.cmd == 0 && smb2.flags.response == 1", ["smb2.dialect"])
    assert answers and all(row == ["0x0311"] for row in answers)
    assert shown(name, "smb2.cmd == 5 && smb2.flags.response == 1 && smb2.lease.parent_lease_key", ["frame.number"])


# StructureSize and NewEpoch of the breaks of v2_breaking3, and an epoch that is older
CHAINED, OLDER = "2c001300", "2c001100"


def chain_with_an_older_epoch() -> str:
    """The third break of the chain has another epoch."""
    first, second, third, rest = of_kept("smbtorture_v2_leases", []).split(CHAINED)
    return CHAINED.join((first, second, third)) + OLDER + rest


@SIDES
def test_epochs(side: str, program: str) -> None:
    """smbd sends the breaks of a chain with one epoch, of which nothing is said; an older one doesn't follow on (3.3.4.7)."""
    name = "smbtorture_v2_leases"
    rows = shown(name, "smb2.cmd == 18 && smb2.lease.lease_oplock == 0x13", ["frame.number", "frame.time_relative"])
    [_, _, [number, time]] = rows
    said = [[line.partition(": ")[2] for line in judged(program, lines, side).said if ", epoch " in line]
            for lines in (of_kept(name, []), chain_with_an_older_epoch())]
    assert said == [[], [f"packet {number} at {time}, epoch 17 follows 19"]]


def kind_of(line: str) -> str:
    """What a line below the verdict tells of."""
    if line.startswith("file "):
        return "file"
    if ": not judged" in line:
        return "client"
    return "epoch" if ", epoch " in line else "counts"


@SIDES
def test_the_order_of_what_is_found(side: str, program: str) -> None:
    """Where something is missing at the end of each connection, there are lines of all four kinds."""
    lines = chain_with_an_older_epoch()
    frames = [line.split(" ") for line in lines.splitlines() if line.startswith("frame ")]
    [_, packet, time, *_] = frames[-1]
    gaps = "".join(f"gap {packet} {time} {connection}\n" for connection in sorted({it[3] for it in frames}))
    kinds = [kind_of(line) for line in judged(program, lines + gaps, side).said[1:]]
    assert list(dict.fromkeys(kinds)) == ["file", "client", "epoch", "counts"]
    assert kinds == sorted(kinds, key=["file", "client", "epoch", "counts"].index)


def frames_of(lines: str) -> list[str]:
    """The bytes of the frames."""
    return [line.split(" ")[-1] for line in lines.splitlines() if line.startswith("frame ")]


@pytest.mark.parametrize("name", ENCRYPTED)
def test_decrypted(name: str) -> None:
    """With its keys each frame is a message; without them those that were encrypted are as they came."""
    plain, encrypted = frames_of(of_kept(name, keys_of(name))), frames_of(of_kept(name, []))
    assert {it[:8] for it in plain} == {"fe534d42"}
    assert {it[:8] for it in encrypted} == {"fe534d42", "fd534d42"}
    assert len(plain) == len(encrypted)
    assert all(one == other for one, other in zip(plain, encrypted) if other.startswith("fe"))
    assert all(is_as_long(bytes.fromhex(one), bytes.fromhex(other)) for one, other in zip(plain, encrypted)
               if other.startswith("fd"))


def is_as_long(plain: bytes, encrypted: bytes) -> bool:
    """A frame has OriginalMessageSize (2.2.41); of a READ response, or of a WRITE request, the data are left out."""
    command, answers = int.from_bytes(plain[12:14], "little"), bool(plain[16] & 1)
    carries_data, fixed = (command, answers) in {(8, True), (9, False)}, {8: 80, 9: 112}
    size = int.from_bytes(encrypted[36:40], "little")
    return len(plain) == (min(size, fixed[command]) if carries_data else size)


def test_decrypted_compounds() -> None:
    """Each frame is one line, whether the packet has more of them or the frame has two messages: the client sent a CREATE with
    its CLOSE three times, twice in one packet with an ECHO."""
    name = "encrypted_compounds"
    lines = [line.split(" ") for line in of_kept(name, keys_of(name)).splitlines()]
    compounds = [(packet, side) for _, packet, _, _, _, _, side, _, frame in (it for it in lines if it[0] == "frame")
                 if bytes.fromhex(frame)[20:24] != bytes(4)]
    sent = [packet for packet, side in compounds if side == "from-client"]
    assert len(compounds) == 6 and len(sent) == 3 and sent[1] == sent[2]
    assert sum(it[:2] == ["frame", sent[1]] for it in lines) == 3


@SIDES
@pytest.mark.parametrize("name", ENCRYPTED)
def test_without_its_keys(name: str, side: str, program: str) -> None:
    def is_judged(keys: list[str]) -> bool:
        had = judged(program, of_kept(name, keys), side)
        assert (had.status == NOTHING_JUDGED) == (had.said[0] == WORDS[NOTHING_JUDGED])
        return had.status != NOTHING_JUDGED

    assert is_judged(keys_of(name))
    assert not is_judged([])
    assert not is_judged([f"{it[:-2]}{int(it[-2:], 16) ^ 1:02x}" for it in keys_of(name)])


@pytest.mark.parametrize("text", ["", f"{ID}", f"{ID}:", f"{ID[1:]}:{KEY}", f"{ID}:{KEY[1:]}", f"x{ID[1:]}:{KEY}",
                                  f"{ID}:{KEY}0", f'{ID}:{KEY},"",""', f"{ID}:{KEY}\n", f"{ID} {KEY}"])
def test_session_key_that_is_refused(text: str) -> None:
    had = ran("capture", [CAPTURES / "encrypted_smbtorture.pcapng", "--session-key", text])
    assert (had.status, had.out) == (2, "")
    assert "--session-key" in had.faults and "Traceback" not in had.faults


@pytest.mark.parametrize("name", SCENARIOS)
def test_scenario(name: str, program: str, tmp_path: Path) -> None:
    made = Made()
    expected = SCENARIOS[name](made)
    path = tmp_path / "one.pcap"
    path.write_bytes(made.data())
    text = text_of(path)
    for side, is_unsafe in (("client", expected.at_client), ("server", expected.at_server)):
        had = judged(program, text, side)
        assert (had.status == UNSAFE) == is_unsafe, f"--at {side}\n{had.said}"


def test_nothing_but_its_end(program: str) -> None:
    assert judged(program, "end 1 0.5 1\n", "server").status == NOTHING_JUDGED


@pytest.mark.parametrize("line", ["frame 1 0.5 1 a b from-client 0", "frame 1 0.5 1 a b from-client 0 fe534d4", "end 1 0.5",
                                  "gap 1 . 1", "frame 1 0.5 1 a b from-nobody 0 fe", "begin 1 0.5 1"])
def test_refused_line(line: str, program: str) -> None:
    had = subprocess.run([program, "capture", "-"], input=f"# first\nend 1 0.5 1\n{line}\n", capture_output=True, text=True,
                         check=False)
    assert (had.returncode, had.stdout, had.stderr.splitlines()[0]) == (1, "", "fault line 3")
