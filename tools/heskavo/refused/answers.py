"""A function's file of stored answers (`Answers.antt`): its paragraphs, and the file without some of them.

A stored answer that is one call of a tactic, after `let` lines or in the cases of an `elim`, says nothing of the body: the tactic
searches each body's own goal. Where it finds no proof, the goal is open. Any other stored answer is a term that was written for one
body, and it may not fit another that the contract allows.
"""
import re
from collections.abc import Iterable
from typing import NamedTuple, Optional

from heskavo.refused.kit import Error

MISSING = re.compile(r"\.Goals` has no `([^`]*)`")
HEAD = re.compile(r"(?:\s*--[^\n]*\n)*\s*(?:pub )?([^\s:]+)[^\n]* :")
TACTIC = re.compile(r"(?:search|grind|omega|cc)\b")
# What may stand between a definition's `=` and a tactic that is run on the whole goal.
LET = re.compile(r"let [^\n]*(?:\n(?! {0,4}\S)[^\n]*)* in\s*")
CASES = re.compile(r"elim c\.[^\s\[]+ \[\s*")
CASE = re.compile(r"(?:\| )?[\w.+-]+ \w+ ↦\s*")


class Paragraph(NamedTuple):
    """A paragraph of the file, what it defines, and its first line, counted from 1."""

    text: str
    name: Optional[str]
    first: int

    def end(self) -> int:
        return self.first + max(1, self.text.count("\n"))


def names(text: str, name: str) -> bool:
    return re.search(rf"(?<![\w-]){re.escape(name)}(?![\w-])", text) is not None


def paragraphs(text: str) -> list[Paragraph]:
    """The file's paragraphs; of one that defines nothing, as one of `use` lines, the name is None."""
    found, at = [], 1
    for paragraph in re.split(r"(?<=\n)(?=\n)", text):
        head = None if paragraph.lstrip().startswith("use ") else HEAD.match(paragraph)
        found.append(Paragraph(paragraph, head[1] if head else None, at))
        at += paragraph.count("\n")
    return found


def of_goals(text: str) -> set[str]:
    """The names of the goals that have an answer in the file."""
    return {
        it.name
        for it in paragraphs(text)
        if it.name and re.search(rf"^(?:pub )?{re.escape(it.name)} : \w+\.{re.escape(it.name)}$", it.text, re.M)
    }


def without(text: str, gone: Iterable[str]) -> str:
    """The file without these definitions and those that name one of them."""
    whole = paragraphs(text)
    gone = with_those_that_name(whole, gone)
    kept = [it.text for it in whole if it.name not in gone]
    return "".join(without_unused(it, kept[at + 1 :]) for at, it in enumerate(kept))


def with_those_that_name(whole: list[Paragraph], gone: Iterable[str]) -> set[str]:
    """These definitions, and those whose paragraphs name one of them."""
    every = {*gone}
    while found := {
        it.name for it in whole if it.name and it.name not in every and any(names(it.text, name) for name in every)
    }:
        every |= found
    return every


def without_unused(paragraph: str, others: list[str]) -> str:
    """A paragraph of `use` lines without the goals that the others do not name: in another body a goal may have another shape."""
    lines = []
    for line in paragraph.split("\n"):
        found = re.match(r"use (\S+\.Goals)\.\{(.*)\}$", line)
        used = [name for name in found[2].split(", ") if any(names(it, name) for it in others)] if found else []
        if not found or used:
            lines.append(f"use {found[1]}.{{{', '.join(used)}}}" if found else line)
    return "\n".join(lines)


def unfit(text: str, errors: list[Error]) -> set[str]:
    """The definitions of the file, as it was checked, in which these errors stand, or which name a goal that is not there any more."""
    whole = [it for it in paragraphs(text) if it.name]
    gone = {it.name for it in whole for error in errors if it.name and it.first <= error.line < it.end()}
    missing = [goal for error in errors for goal in MISSING.findall(error.said)]
    return gone | {it.name for it in whole if it.name and any(names(it.text, goal) for goal in missing)}


def is_of_the_goal(text: str, error: Error) -> bool:
    """Whether the error stands at a tactic that is run on a whole goal, or on a case of it, so that it found no proof of it."""
    paragraph = next((it for it in paragraphs(text) if it.name and it.first <= error.line < it.end()), None)
    if paragraph is None:
        return False
    lines = paragraph.text.split("\n")[: error.line - paragraph.first + 1]
    if not lines or not TACTIC.match(lines[-1][error.column - 1 :]):
        return False
    before = re.split(
        rf"^{re.escape(paragraph.name or str())}(?: [\w ]+)? =\s*",
        "\n".join([*lines[:-1], lines[-1][: error.column - 1]]),
        maxsplit=1,
        flags=re.M,
    )
    return len(before) == 2 and is_led_in(before[1])


def is_led_in(before: str) -> bool:
    """Whether nothing but `let` lines, the head of an `elim` and earlier cases by tactics stand before a tactic."""
    rest = LET.sub("", before)
    cases = CASES.match(rest)
    if cases is None:
        return not rest.strip()
    *earlier, last = re.split(r"(?=\| )", rest[cases.end() :])
    parts = [CASE.sub("", LET.sub("", it), count=1).strip() for it in earlier]
    return not CASE.sub("", LET.sub("", last), count=1).strip() and all(not it or TACTIC.match(it) for it in parts)
