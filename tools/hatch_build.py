"""Puts the program and the library for C into the wheel, as tools/current finds them, and names the systems that run them. Wheel
and sdist have the commit that they are made from."""
from __future__ import annotations

import os
import re
import struct
import subprocess
import sys
import sysconfig
import tempfile
from pathlib import Path
from typing import Any, Sequence

from hatchling.builders.hooks.plugin.interface import BuildHookInterface

LIBRARY, PROGRAM = "libsmblease.so", "leasecheck"
# Where an installed wheel has the program, which the command of its name starts.
PLACE = f"libexec/smblease/{PROGRAM}"
# The versions of glibc whose symbols a file needs, as its table of names has them.
GLIBC = re.compile(rb"\0GLIBC_2\.(\d+)(?:\.\d+)?(?=\0)")
MACHINES = {62: "x86_64", 183: "aarch64"}


def platform_of(files: Sequence[Path]) -> str:
    """The tag of the systems that run all of these: each Linux of their processor with the glibc that they need (PEP 600)."""
    contents = [it.read_bytes() for it in files]
    machines = {struct.unpack_from("<H", it, 18)[0] if it.startswith(b"\x7fELF\2\1") else 0 for it in contents}
    needed = [int(number) for it in contents for number in GLIBC.findall(it)]
    machine = MACHINES.get(machines.pop()) if len(machines) == 1 else None
    if machine is None or not needed:
        return re.sub(r"\W", "_", sysconfig.get_platform())
    return f"manylinux_2_{max(needed)}_{machine}"


def printed_by(tool: Path) -> str:
    found = subprocess.run([tool], stdout=subprocess.PIPE, check=False, text=True)
    if found.returncode:
        # (it has said why)
        sys.exit(1)
    return found.stdout.strip()


class Hook(BuildHookInterface[Any]):
    _made: list[str] = []

    def _made_file(self, text: str, mode: int = 0o644) -> str:
        """A file of this text, which is there until the wheel or sdist is made."""
        descriptor, name = tempfile.mkstemp()
        with open(descriptor, "w", encoding="utf-8") as file:
            file.write(text)
        os.chmod(name, mode)
        self._made = [*self._made, name]
        return name

    def initialize(self, version: str, build_data: dict[str, Any]) -> None:
        """`version` is what kind of wheel it is; an editable one leads to the repository, which has all of this."""
        if version == "editable":
            return
        tools = Path(self.root) / "tools"
        commit = printed_by(tools / "commit")
        files = {}
        if self.target_name == "wheel":
            library, program = (Path(printed_by(tools / "current")) / name for name in (LIBRARY, PROGRAM))
            build_data["pure_python"] = False
            build_data["tag"] = f"py3-none-{platform_of([library, program])}"
            data = f"{self.build_config.builder.project_id}.data"
            command = (tools / "installed_program.in").read_text(encoding="utf-8")
            command = command.replace("@PROGRAM@", f"../{PLACE}").replace("@COMMIT@", commit)
            files = {str(library): f"smblease/{LIBRARY}", str(program): f"{data}/data/{PLACE}",
                     self._made_file(command, 0o755): f"{data}/scripts/{PROGRAM}"}
        if commit:
            files[self._made_file(f"{commit}\n")] = "smblease/COMMIT" if self.target_name == "wheel" else "COMMIT"
        build_data["force_include"].update(files)

    def finalize(self, version: str, build_data: dict[str, Any], artifact_path: str) -> None:
        for name in self._made:
            os.unlink(name)
