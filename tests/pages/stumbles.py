"""Forms that a reader of English stumbles over: each with an example from a page as it once stood, and what a native engineer
would write. They are looked for in the pages; words.py has words that are looked for in doc comments and headers too."""
from __future__ import annotations

import re
from typing import NamedTuple


class Stumble(NamedTuple):
    form: "re.Pattern[str]"
    example: str
    better: str


# What a sentence begins with: the start of a paragraph, or the end of the sentence before.
BEGINNING = r"(?:^|(?<=[.:;] ))"


def stumble(form: str, example: str, better: str) -> Stumble:
    return Stumble(re.compile(form), example, better)


STUMBLES = (
    # Inverted: the subject stands at the end, or the object at the beginning.
    stumble(r"\b[Oo]f no \w+ (?:anything|a \w+ is)\b", "of no file anything is decided", "no file is decided"),
    stumble(BEGINNING + r"[Oo]f [\w`', -]{2,40} (?:only|none|nothing) (?:\w+ )?(?:is|are)\b",
            "Of a run with more than 5,000 requests none are drawn", "The requests of a run with more than 5,000 aren't drawn"),
    stumble(BEGINNING + r"(?:Printed|Refused|Unsafe|Needed|Wanted|Known|Left out)(?: at once)? (?:is|are)\b",
            "Printed is the acknowledgment", "It prints the acknowledgment"),
    stumble(BEGINNING + r"(?:In it|In them|With it|With them|By hand|Among them) (?:is|are)\b",
            "In it are the library and the program", "It has the library and the program"),
    stumble(BEGINNING + r"Nor (?:has|is|does|have|was|do)\b", "Nor has one a picture that is drawn",
            "None has a picture that is drawn"),
    stumble(r"\bof (?:more than )?\d+ (?:\w+ )?there (?:is|are)\b", "of more than 64 bytes there are the first 64",
            "of more than 64 bytes the first 64 are printed"),
    stumble(r"\bis, is\b", "a request that needs more memory than there is, is answered",
            "a request that needs too much memory is answered"),
    # Clipped: a verb or what it is about is missing.
    stumble(r"\bwhose an? \w+(?: and an? \w+(?: \w+)?)? is\b", "whose a session and a durable open is",
            "to whom a session belongs"),
    stumble(r"\bknown whose\b", "of which it isn't known whose it is", "whose owner isn't known"),
    stumble(r"\bof which it (?:is|isn't) \w+\b", "a connection of which it isn't known where it leads",
            "a connection that may lead anywhere"),
    stumble(r"\bthat there (?:is|are)(?=[,.:;)]|$)", "each is an edit that there is", "each is an existing edit"),
    stumble(r"\bas whichever\b", "refused as whichever it has more lines of", "refused as a record if it has more lines of one"),
    stumble(r"\bnot counted\b", "from 1, those that are passed over not counted", "from 1, without those that are ignored"),
    stumble(r"\(own \w+\)", "lines, one for each frame (own format)", "lines in a format of this project"),
    stumble(r"\bwhat it was answered\b", "what it was answered goes before a break", "answers to it go before a break"),
    stumble(r"\bthat goes which\b", "for each new one that goes which was silent", "each new one replaces one that was silent"),
    stumble(r"\bwho comes then\b", "a new manager serves who comes then", "a new manager serves later clients"),
    stumble(r"\b(?:is|are) wanted of\b", "asks every lease for what is wanted of it", "asks every lease what it has to give up"),
    stumble(r"\bpeople read of\b", "what people read of a report", "the words of a report"),
    stumble(r"\bthe one's\b", "the one's key holds W", "the first one's key holds W"),
    stumble(r"\bnobody's same\b", "guests are nobody's same user", "no guest counts as the same user as another"),
    # Of another time, or of another language.
    stumble(r"\b(?:is|to be|be|was|are) had\b", "they don't say where it is to be had", "they don't say where to get it"),
    stumble(r"\bbe it\b", "changed something, be it only a queue", "changed something, if only a queue"),
    stumble(r"\bnone else\b", "one where the entry has asked, and none else", "one where the entry has asked, and no others"),
    stumble(r"\bat the most\b", "the answer is UsedUp at the most handles", "the answer is UsedUp if no handle is left"),
    stumble(r"\b(?:is|are|shows?) the like\b", "where no other of the crate shows the like",
            "where no other edit of the crate shows the same"),
    stumble(r"\bso many (?:of|at|schedules|writes)\b", "`--jobs N` drives so many at a time", "`--jobs N` drives N at a time"),
    stumble(r"\bgo(?:es)? round\b", "a deque that goes round its end", "a deque that wraps"),
    stumble(r"\bturns? it round\b", "keeps it newest first and turns it round", "keeps it newest first and reverses it"),
    stumble(r"(?<!-)\banew\b", "the scripts print them anew", "the scripts print them again"),
    stumble(r"'s stead\b", "has random runs in the theorem's stead", "has random runs instead of a theorem"),
    stumble(r"\b[Bb]ut for\b", "nothing is printed, but for a beginning", "nothing is printed, except a beginning"),
    stumble(r"\bas the \w+ on \w+ has it\b", "the reasons, as the section on explanations has it",
            "the reasons (\"Explanations\")"),
    stumble(r"\banother \w+ than\b", "ended with another status than 0 to 3", "ended with a status other than 0 to 3"),
    stumble(BEGINNING + r"Else\b", "Else RULE is the lowest", "Otherwise RULE is the lowest"),
    stumble(r"\ball else\b", "and all else of SMB 3", "and everything else of SMB 3"),
    stumble(r"\bno word (?:of|on)\b", "needs no word on a cut", "needs no premise about a cut"),
    stumble(r"\bneeds? (?:be|no proof)\b", "what was answered need be kept no longer", "what was answered needn't be kept"),
    stumble(r"\bto the (?:byte|letter)\b", "compares what they print to the letter", "compares exactly what they print"),
    stumble(r"\bin turns\b", "the least time of six, in turns", "the least time of six, alternating"),
    stumble(r"\bthis much of\b", "the contracts say this much of the command line",
            "the contracts say only this about the command line"),
    stumble(r"\b[Ff]rom there on\b", "a remark says where it ends from there on", "a remark says where it ends from then on"),
    stumble(r"\bdriven to (?:its|the|their) end\b", "24 of the 26 are driven to their end", "24 of the 26 are driven completely"),
    stumble(r"\bis for an? \w+ to\b", "it is for a host to pass on each decision", "a host has to pass on each decision"),
    stumble(r"\bone time at which\b", "they have one time at which they were made", "they were made at the same time"),
    stumble(r"\bin words of its own\b", "not proved in words of its own", "not proved separately"),
    stumble(r"\bhis own word\b", "the name of a guest is his own word", "nothing proves the name of a guest"),
)


def stumbles_in(text: str) -> list[tuple[int, int]]:
    return [match.span() for it in STUMBLES for match in it.form.finditer(text)]
