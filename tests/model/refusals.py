"""How commands are refused."""

TEXTS = {
    1: "syntax", 2: "in a proof", 3: "no proof open", 4: "unknown theory", 5: "unknown theorem", 6: "unknown TAC or wrong arguments", 7: "untypable", 8: "not bool",
    9: "type constructor's arity", 10: "name taken", 11: "not closed", 12: "type variables not reflected", 13: "too large", 14: "bad rule",
    15: "hypotheses not among assumptions", 16: "no goal open", 17: "refused", 18: "turn limit", 19: "goals remain", 20: "nothing to undo", 21: "import clash",
}  # fmt: skip
LIMIT = 20_000


class Refusal(Exception):
    """A command is refused by a number. `case` tells cases of one number apart, for the counts alone."""

    def __init__(self, number, arg="", case=""):
        super().__init__(number)
        self.number, self.arg, self.case = number, arg, case

    def report(self):
        return {"arg": self.arg, "ok": True, "refusal": self.number, "text": TEXTS[self.number]}


class Unfit(Exception):
    """An expression doesn't fit a goal, which ORELSE and the like go on from."""

    def __init__(self, number, name):
        super().__init__(number)
        self.number, self.name, self.is_inside = number, name, False


class Stop(Exception):
    """A run ends, and nothing goes on from that: a goal is too large, or the turns are spent."""

    def __init__(self, number):
        super().__init__(number)
        self.number, self.is_inside = number, False


class Unmodelled(Exception):
    """What isn't written anew here."""
