"""What bash makes of a line that is typed, with its tabs."""
from __future__ import annotations

import os
import pty
import subprocess
from pathlib import Path


def offered(file: Path, function: str, *words: str) -> set[str]:
    """What is offered for the last of these words, by the function itself."""
    asked = (f'COMP_WORDS=("$@") COMP_CWORD=$(($# - 1)); {function} "$1" "${{@: -1}}" "${{@: -2:1}}"; '
             'printf "%s\\n" "${COMPREPLY[@]}"')
    done = subprocess.run(["bash", "--norc", "-c", f". {file}; {asked}", "bash", *words], stdout=subprocess.PIPE, check=True,
                          text=True)
    return set(done.stdout.split("\n")) - {""}


def typed(file: Path, line: str, folder: Path) -> str:
    """What a line gives its program, in whose place a function prints its arguments."""
    echo = f"{line.split()[0]}() {{ printf '<%s>' \"$@\"; echo; }}"
    keyboard, terminal = pty.openpty()
    shell = subprocess.Popen(["bash", "--norc", "--noprofile", "-i"], stdin=terminal, stdout=subprocess.PIPE, stderr=terminal,
                             cwd=folder, start_new_session=True, text=True, env={"PATH": os.environ["PATH"], "TERM": "dumb",
                                                                                 "INPUTRC": "/dev/null", "HOME": str(folder)})
    os.close(terminal)
    os.write(keyboard, f". {file}; {echo}\n{line}\nexit\n".encode())
    try:
        return shell.communicate(timeout=60)[0]
    finally:
        shell.kill()
        os.close(keyboard)
