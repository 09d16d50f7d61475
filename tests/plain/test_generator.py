"""What tools/plain_rust makes of a crate: contracts and what serves them go, all else stays; what it doesn't know is refused."""
from __future__ import annotations

import subprocess
from pathlib import Path

import pytest

from plain_rust.faults import NotKnown
from plain_rust.sources import Crate, read_crates
from plain_rust.tokens import text_of, tokens_of
from plain_rust.workspace import prepare, unplaced
from plain_rust.writing import Place, written
from tests import needs
from tests.paths import TOP, files_of, name_of

HEAD = "// Made by tools/plain_rust from crates/one/src/lib.rt. Changes belong there.\n\n"


def crate_of(folder: Path, text: str, **modules: str) -> dict[str, Crate]:
    """A repository of one crate, read and made plain Rust."""
    source = folder / "crates" / "one" / "src"
    source.mkdir(parents=True)
    (folder / "crates.txt").write_text("one staticlib: core lease_state thiserror uuid\n", encoding="utf-8")
    for module, content in {"lib": text, **modules}.items():
        (source / f"{module}.rt").write_text(content, encoding="utf-8")
    crates = read_crates(folder)
    prepare(crates)
    return crates


def plain(folder: Path, text: str, **modules: str) -> str:
    """What is made of a module, without the head."""
    crate = crate_of(folder, text, **modules)["one"]
    place = Place("crate::proved::one", {"lease_state": "smblease::proved::lease_state", "uuid": "std::ports::uuid"})
    return written(crate.modules[()], place).removeprefix(HEAD)


SAMPLES = TOP / "tests" / "plain" / "samples"


def laid_out(text: str) -> list[str]:
    """The lines of the text as rustfmt lays it out, without empty ones."""
    command = ["rustfmt", "--edition", "2024", "--config-path", str(TOP / "rust" / "rustfmt.toml")]
    had = subprocess.run(command, input=text, stdout=subprocess.PIPE, check=True, encoding="utf-8")
    return [line for line in had.stdout.splitlines() if line]


@needs.program("rustfmt")
@pytest.mark.parametrize("source", files_of(SAMPLES, "*.rattle"), ids=name_of)
def test_made(source: Path, tmp_path: Path) -> None:
    """Of each sample in Rattle what stands beside it in Rust is made."""
    made = plain(tmp_path, source.read_text(encoding="utf-8"))
    assert laid_out(made) == laid_out(source.with_suffix(".rs").read_text(encoding="utf-8"))


LAWS = """
pub fn law(at: u8)
    ensures { at ≡ at }
{
}

pub fn above(at: u8)
    ensures { at ≡ at }
{
    law(at);
}

pub fn kept(at: u8) -> u8
    ensures { at ≡ at }
{
    at
}

pub fn changes(at: &mut u8)
    ensures { at.new ≡ at.old }
{
}

fn looks(at: &Told)
    ensures { at ≡ at }
{
    let _told = at.told;
    match at {
        Told(1) => law(at.told),
        _ => {}
    }
}

pub fn looks_at_all(told: &[Told])
    ensures { told ≡ told }
{
    for at in told.iter() {
        looks(at);
    }
}

pub fn fails(told: &[u8])
    ensures { told ≡ told }
{
    let _first = told[0];
}
"""
CALLER = """
mod laws;
mod other;

pub use laws::{changes, fails, kept, law, looks_at_all};
use other::same;

pub fn one(at: u8) -> u8 {
    // by the law
    law(at);
    looks_at_all(&[]);
    laws::above(at);
    match at {
        0 => law(at),
        _ => same(at),
    }
    at
}
"""
WITHOUT_LAWS = """
mod laws; mod other; pub use laws::{changes, fails, kept}; use other::same; pub fn one(at: u8) -> u8 { match at { 0 => (), _ => same(at), } at }
"""


def test_laws_go_with_what_calls_them(tmp_path: Path) -> None:
    """A law, one that only calls it, their calls in places of each kind and their imports; a function of a law's name stays."""
    crate = crate_of(tmp_path, CALLER, laws=LAWS, other="pub fn same(at: u8) {\n    print(at)\n}\n")["one"]
    place = Place("crate::proved::one", {})
    assert written(crate.modules[()], place).removeprefix(HEAD).split() == WITHOUT_LAWS.split()
    assert [item.name for item in crate.modules[("laws",)].functions()] == ["kept", "changes", "fails"]


def test_modules_of_laws_go(tmp_path: Path) -> None:
    text = "//! Docs.\n\nmod laws;\n\npub use laws::law;\n\npub fn one() {\n    law()\n}\n"
    made = plain(tmp_path, text, laws="ghost use A;\n\npub fn law()\n    ensures { ⊤ }\n{\n}\n")
    assert made.split() == "//! Docs. pub fn one() {}".split()


# What the table lacks, and what is said of it: the line, and some words.
UNKNOWN = {
    "attribute": ("fn one() {}\n\n#[opaque]\nfn two() {}\n", 3, "an attribute 'opaque'"),
    "attribute within": ("struct One {\n    #[opaque]\n    at: u8,\n}\n", 2, "an attribute 'opaque'"),
    "derive": ("#[derive(Debug, Default)]\nstruct One;\n", 1, "a derive 'Default'"),
    "clone": ("\n#[derive(Clone)]\nstruct One;\n", 2, "a derived clone that may fail"),
    "macro": ("fn one() {\n    dbg!(1);\n}\n", 2, "a macro 'dbg'"),
    "ghost item": ("impl One for Two {\n    ghost measure = { 1 };\n}\n", 2, "a ghost item 'measure'"),
    "ghost field": ("struct One {\n    ghost seen: { Nat },\n}\n", 2, "a ghost item 'seen'"),
    "item": ("fn one() {}\n\nlemma two() {}\n", 3, "an item that begins with 'lemma'"),
    "error with a field": ("#[derive(Error)]\nenum One {\n    #[error(\"at {0}\")]\n    At(u8),\n}\n", 4, "an error with fields"),
    "test with more": ("#[test]\nfn one(rt: HostRuntime, at: u8) {}\n", 2, "other parameters than a runtime"),
    "open block": ("fn one()\n    ensures { a\n{\n}\n", 2, "a block that isn't closed"),
    "open string": ("const ONE: &str = \"one;\n", 1, "a string that isn't closed"),
}


@pytest.mark.parametrize("name", UNKNOWN)
def test_unknown(name: str, tmp_path: Path) -> None:
    text, line, said = UNKNOWN[name]
    with pytest.raises(NotKnown) as found:
        plain(tmp_path, text)
    assert str(found.value).startswith(f"crates/one/src/lib.rt:{line}: ") and said in str(found.value)


def test_tokens_are_the_source() -> None:
    for file in sorted((TOP / "crates").glob("*/src/**/*.rt")):
        text = file.read_text(encoding="utf-8")
        assert text_of(tokens_of(str(file), text)) == text


@needs.program("rustfmt")
def test_the_workspace_is_what_is_made() -> None:
    had = subprocess.run([TOP / "tools/plain_rust", "--check"], stdout=subprocess.PIPE, text=True, check=False)
    assert had.stdout.endswith(" 0 failed\n")


def test_a_crate_that_no_package_has(tmp_path: Path) -> None:
    assert unplaced(crate_of(tmp_path, "pub fn one() {}\n")) == ["one"]


def test_words() -> None:
    had = subprocess.run([TOP / "tools/plain_rust", "--nonsense"], stderr=subprocess.PIPE, text=True, check=False)
    assert had.returncode == 2 and "--nonsense" in had.stderr
