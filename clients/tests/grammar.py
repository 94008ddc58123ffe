"""Random texts of a grammar as docs/NOTATION.md writes one: rules `name := form | form`, of words that are rules or tokens, with
`x*` and `{..}` for any number, `[: type]` for what may be missing, and `( = t12 | <=> term )` or `( a or b )` for one of several."""

import random
import re
from typing import Dict, List

_RULE = re.compile(r"^(\w+) +:= ", re.M)
_REMARK = re.compile(r"^ +[^ |].*\n?|(?<=\S) {4,}\S.*$", re.M)
TOKENS = {
    "IDENT": ("x", "y", "P", "f", "A", "bool", "T", "g"), "NUM": ("0", "2", "16"), "NAME": ("A1", "TRUTH", "bool", "CONJ_TAC", "ACCEPT_TAC", "x"),
    "QUOTE": ("` x = y `", "`!x. P x`", "`p /\\ q`"), "TQUOTE": ("`:A->bool`", "` : bool `"), "DQUOTE": ("`c x = x`", "`c (x : A) : bool <=> T`")}


class Grammar:
    """The rules of a text, with a source of chances."""

    def __init__(self, text: str, chance: random.Random) -> None:
        self.chance = chance
        starts = list(_RULE.finditer(text))
        bodies = [text[one.end():next_one.start() if next_one else len(text)] for one, next_one in zip(starts, starts[1:] + [None])]
        self.rules: Dict[str, List[List[str]]] = {one.group(1): self._forms(body) for one, body in zip(starts, bodies)}
        self.depths = {rule: len(self.rules) for rule in self.rules}
        for _ in self.rules:
            self.depths = {rule: 1 + min(map(self._depth, forms)) for rule, forms in self.rules.items()}

    def _depth(self, form: List[str]) -> int:
        """How deep a form goes at least: what may be missing is left out."""
        return max((self.depths.get(word, 0) for word in form), default=0)

    def _forms(self, body: str) -> List[List[str]]:
        """The forms of a rule. What stands far behind one is a remark; those of `op` are single tokens."""
        text = _REMARK.sub("", body)
        if " | " not in text and "<=> ==>" in text:
            return [[word] for word in text.split()]
        return [form.split() for form in re.split(r" \| (?![^(]*\bterm \) `)", " ".join(text.split()))]

    def text(self, rule: str, depth: int) -> str:
        """A text of a rule. Below the depth the form is taken that soonest comes to its end."""
        if rule in TOKENS and (rule not in self.rules or depth <= 0):
            return self.chance.choice(TOKENS[rule])
        forms = self.rules[rule]
        return self._of(min(forms, key=self._depth) if depth <= 0 else self.chance.choice(forms), depth - 1)

    def _of(self, form: List[str], depth: int) -> str:
        said, at = [], 0
        while at < len(form):
            word = form[at]
            if word.startswith("[:"):
                if self.chance.random() < 0.3 and depth > 0:
                    said += [":", self.text(form[at + 1].rstrip("]"), depth)]
                at += 2
            elif word.startswith("{"):
                end = next(place for place in range(at, len(form)) if form[place].endswith("}"))
                inner = [form[at][1:], *form[at + 1:end], form[end][:-1]]
                said += [self._of([one for one in inner if one], depth)] * (self.chance.randrange(3) if depth > 0 else 0)
                at = end + 1
            elif word == "(" and ("or" in form[at:] or "|" in form[at:]):
                end = form.index(")", at)
                parts = " ".join(form[at + 1:end]).split(" or " if "or" in form[at:end] else " | ")
                said.append(self._of(self.chance.choice(parts).split(), depth))
                at = end + 1
            else:
                said.append(self._word(word, depth))
                at += 1
        return " ".join(said)

    def _word(self, word: str, depth: int) -> str:
        if word.endswith("*") and (word[:-1] in self.rules or word[:-1] in TOKENS):
            return " ".join(self.text(word[:-1], depth) for _ in range(self.chance.randrange(3) if depth > 0 else 0))
        return self.text(word, depth) if word in self.rules or word in TOKENS else word
