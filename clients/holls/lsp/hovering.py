"""What an editor shows beside a name: how it is written and what it does, or its statement and on what it rests, or its expression."""

from __future__ import annotations

from typing import Optional

from holls import binders, manual, names, notation
from holls.files import File
from holls.lsp.lookup import Word
from holls.names import CONSTANT, IN_TERMS, TACTIC, THEOREM, Known
from holls.view import PLAIN

KINDS = {THEOREM: "theorem", CONSTANT: "constant", TACTIC: "tactic"}


def of_word(word: Word, more: Optional[str]) -> Optional[str]:
    """The text on a name, in Markdown, with what it rests on, or a variable's type; None where nothing is known of it."""
    if word.entry:
        return fenced(word.entry.form) + "\n" + word.entry.does
    if word.theory:
        return "the theory %s" % word.theory
    if word.known is None:
        return fenced("%s : %s" % (word.name, word.view.type(more))) if more else None
    known = word.known
    lines = [fenced(known.line(word.view))]
    operator = word.view.table.of_constant.get(known.name) if known.kind == CONSTANT else None
    if operator:
        lines.append("written `%s`: infix%s %d" % (operator.symbol, operator.grouping[0], operator.precedence))
    if known.line(word.view) != known.line(PLAIN):
        lines.append("in plain:\n" + fenced(known.line(PLAIN)))
    if known.file is None:
        lines.append("%s of the prelude" % _of_prelude(known))
    else:
        lines.append("%s of %s%s" % (KINDS.get(known.kind, "type"), known.origin, "" if known.is_made else ", not proved or checked yet"))
    if more:
        lines.append(more)
    return "\n\n".join(lines)


def _of_prelude(known: Known) -> str:
    """What a name of the prelude is."""
    if known.kind != THEOREM:
        return "a " + KINDS.get(known.kind, "type")
    if known.name.endswith("_AX"):
        return "an axiom"
    return "a definition" if known.name.endswith("_DEF") or known.name in manual.CONSTANTS else "a theorem"


def question(file: File, word: Word) -> Optional[str]:
    """The command that asks for the type of a variable in a quotation.

    None where there is none, or where a name in it is made further down: it is asked at the theory's end, where that would be read.
    """
    if not word.is_quoted:
        return None
    place = notation.word_at(word.command.text, word.command.offset(word.start))[0]
    used = binders.names(word.command.text, place)
    is_other = any(
        one.name in used and one.kind in IN_TERMS and file.commands[one.number].start > word.command.start for one in names.written(file))
    return None if is_other else binders.question(word.command.text, place)


def fenced(text: str) -> str:
    """Text in the notation, as Markdown has it."""
    return "```hol\n%s\n```" % text.rstrip("\n")
