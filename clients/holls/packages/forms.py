"""How packages are written that stand for commands. What expands them is loaded where the first one stands."""

from __future__ import annotations

DEFINE_TYPE = "define_type NAME = CONSTRUCTOR type .. | CONSTRUCTOR type .. | .."
DEFINE = "define NAME [by_measure `measure` .. [with THEOREM]] `clauses`"
INDUCTIVE = "inductive NAME [THEOREM; ..] `rules`, where theorems in brackets may be left out"
SPECIFICATION = "specification NAME CONSTANT .. THEOREM"
RECORD = "record NAME = CONSTRUCTOR field:type .."
