"""What a release has attached, made of a clone with a tag; and what is no release."""
from __future__ import annotations

import subprocess
from pathlib import Path

import pytest

from tests import needs
from tests.install.making import MARKS, ran
from tests.paths import TOP
from tests.program.test_version import VERSION

pytestmark = [*MARKS, needs.DIST, pytest.mark.xdist_group("installed"),
              pytest.mark.skipif(not (TOP / ".git").exists(), reason="this is no clone")]


def git(folder: Path, *words: str) -> str:
    return subprocess.run(["git", "-C", folder, *words], stdout=subprocess.PIPE, text=True, check=True).stdout.strip()


@pytest.fixture(name="clone")
def clone_of_the_repository(tmp_path: Path) -> Path:
    git(tmp_path, "clone", "--quiet", "--no-tags", str(TOP), "clone")
    return tmp_path / "clone"


@pytest.mark.long
def test_release(clone: Path, tmp_path: Path) -> None:
    git(clone, "tag", f"v{VERSION}")
    done = ran([clone / "tools/release", tmp_path / "attached"], tmp_path)
    assert (done.returncode, done.stderr) == (0, ""), done
    names = {it.name for it in (tmp_path / "attached").iterdir()}
    assert names == {"SHA256SUMS", f"smblease-{VERSION}.tar.gz", f"smblease-{VERSION}-py3-none-manylinux_2_34_x86_64.whl"}
    assert ran(["sha256sum", "--check", "--strict", "--quiet", "SHA256SUMS"], tmp_path / "attached").returncode == 0
    kept = ran(["tar", "-xzOf", tmp_path / f"attached/smblease-{VERSION}.tar.gz", f"smblease-{VERSION}/COMMIT"], tmp_path)
    assert kept.stdout.strip() == git(clone, "rev-parse", "HEAD")


def test_no_tag(clone: Path, tmp_path: Path) -> None:
    done = ran([clone / "tools/release", tmp_path / "attached"], tmp_path)
    assert (done.returncode, done.stderr) == (1, f"tools/release: there is no tag v{VERSION}\n")
    assert not (tmp_path / "attached").exists()


def test_a_changed_tree(clone: Path, tmp_path: Path) -> None:
    git(clone, "tag", f"v{VERSION}")
    (clone / "README.md").write_text("other\n", encoding="utf-8")
    done = ran([clone / "tools/release", tmp_path / "attached"], tmp_path)
    assert (done.returncode, done.stderr) == (1, f"tools/release: the tree isn't what v{VERSION} names\n")


def test_an_older_tag(clone: Path, tmp_path: Path) -> None:
    git(clone, "tag", f"v{VERSION}", "HEAD~1")
    done = ran([clone / "tools/release", tmp_path / "attached"], tmp_path)
    assert (done.returncode, done.stderr) == (1, f"tools/release: the tree isn't what v{VERSION} names\n")


def test_nothing_is_written_over(clone: Path, tmp_path: Path) -> None:
    git(clone, "tag", f"v{VERSION}")
    done = ran([clone / "tools/release", tmp_path], tmp_path)
    assert (done.returncode, done.stderr) == (1, f"tools/release: {tmp_path} is there already\n")


def test_usage(tmp_path: Path) -> None:
    done = ran([TOP / "tools/release"], tmp_path)
    assert (done.returncode, done.stderr) == (2, "usage: tools/release FOLDER\n")


def test_an_archive_knows_its_commit(clone: Path, tmp_path: Path) -> None:
    git(clone, "archive", "--output", str(tmp_path / "archive.tar"), "HEAD")
    (tmp_path / "archive").mkdir()
    assert ran(["tar", "-xf", tmp_path / "archive.tar", "-C", "archive"], tmp_path).returncode == 0
    assert ran(["archive/tools/commit"], tmp_path).stdout == git(clone, "rev-parse", "HEAD") + "\n"


def test_a_copy_knows_none(clone: Path, tmp_path: Path) -> None:
    """Of files alone, without what git keeps."""
    (tmp_path / "copy").mkdir()
    assert ran(["cp", "-r", clone / "tools", clone / ".git_archival.txt", "copy"], tmp_path).returncode == 0
    done = ran(["copy/tools/commit"], tmp_path)
    assert (done.returncode, done.stdout, done.stderr) == (0, "", "")
