"""Words that a reader stumbles over stand nowhere but where words.allowed has them, and its entries are still there."""
from __future__ import annotations

import pytest

from tests.pages.stumbles import STUMBLES, Stumble, stumbles_in
from tests.pages.words import around, is_covered, pages, read_allowed, spans

PAGES = pages()
ALLOWED = read_allowed()


@pytest.mark.parametrize("path", PAGES)
def test_words(path: str) -> None:
    phrases = [entry.phrase for entry in ALLOWED if entry.file == path]
    assert [around(text, span) for text in PAGES[path] for span in spans(text, path) if not is_covered(text, span, phrases)] == []


@pytest.mark.parametrize("entry", ALLOWED, ids=lambda entry: str(entry.phrase))
def test_allowed_phrase(entry: tuple[str, str, str]) -> None:
    file, phrase, reason = entry
    texts = PAGES.get(file, [])
    assert reason and sum(text.count(phrase) for text in texts) == 1
    assert any(is_covered(text, span, [phrase]) for text in texts for span in spans(text, file)), "it has none of the words"


@pytest.mark.parametrize("one", STUMBLES, ids=lambda one: str(one.example))
def test_a_form_is_what_its_example_has(one: Stumble) -> None:
    assert one.form.search(one.example)
    assert stumbles_in(one.better) == []


def test_the_list_is_long() -> None:
    assert len(STUMBLES) >= 40
