"""The commands that make an inductive type, by the general theorem of theories/package_types.hol."""

from __future__ import annotations

from typing import Dict, List, Optional, Tuple

from holls.packages import predicates
from holls.packages.layout import Layout, added, cases, number_on_the_left
from holls.packages.output import HIDDEN, PUBLIC, Output, Span, Steps, chunks, conjuncts, goals
from holls.packages.scope import Data
from holls.packages.terms import fresh, fun, tyshow

_MOST_PLAIN = 6
"""With more constructors some texts are constants, so that they don't stand once for each."""
_ALL_LISTS = "LENGTH; LENGTH_APPEND; ADD_CLAUSES"


class TypeCommands:
    """Makes a type's commands into an output. `spans` are the places of its constructors."""

    def __init__(self, data: Data, out: Output, spans: Dict[str, Span]) -> None:
        self.data, self.out, self.spans = data, out, spans
        self.name = data.name
        self.layout = layout = Layout(data, out.asking)
        self.result = data.result
        self.tree = "((%s,num)prod)pk_any" % layout.labels
        self.is_plain = layout.count <= _MOST_PLAIN
        arities = cases([layout.arity(at) for at in range(layout.count)]) if self.is_plain else "pk_%s_AR" % self.name
        self.arities = "%s:%s->num" % (arities, layout.labels)
        self.make = "mk_%s:%s->%s" % (self.name, self.tree, layout.type)
        self.take = "dest_%s:%s->%s" % (self.name, layout.tight, self.tree)
        unfolded = "" if self.is_plain else "pk_%s_AR_DEF; " % self.name
        self.counting = "%ssum_CASE; K_THM; FST; SND; %s; NUM_EQ_CLAUSES; FORALL_SIMP" % (unfolded, _ALL_LISTS)
        self.definitions = "PURE_REWRITE_TAC [%s]" % "; ".join("pk_%s_DEF" % con.name for con in data.constructors)

    def emit(self) -> None:
        """Makes all commands."""
        self._type()
        self._constructors()
        self._induction()
        self._recursion()
        self._equations()
        self._cases()

    def _span(self, at: int) -> Optional[Span]:
        return self.spans.get(self.data.constructors[at].name)

    def _with(self, theorem: str, more: str = "", at: str = "") -> str:
        """The steps that put a general theorem at this type in front of a goal."""
        layout, name = self.layout, self.name
        general = "INST_TYPE [`:%s`,`:T'`; `:%s`,`:A`%s] %s" % (layout.type, layout.labels, more, theorem)
        for term in ([at] if at else []) + [self.arities, self.make, self.take]:
            general = "SPEC `%s` (%s)" % (term, general)
        return "MP_TAC (%s) THEN MATCH_MP_TAC ANTS THEN CONJ_TAC THENL [REWRITE_TAC [pk_def_TYPED; pk_%s_ABS; pk_%s_REP; FORALL_SIMP]; ALL_TAC]" % (
            general, name, name)

    def _counted(self, more: str = "") -> str:
        """The steps by which a constructor has as many parts as its label says, and what else some theorems make of a goal."""
        found = "REWRITE_TAC [%s%s]" % (self.counting, more)
        return found + (" THEN BETA_TAC THEN REWRITE_TAC [%s%s]" % (self.counting, more) if self.layout.has_lists else "")

    # ---- The type and its constructors

    def _type(self) -> None:
        name, layout, out, data = self.name, self.layout, self.out, self.data
        if not self.is_plain:
            arities = cases([layout.arity(at) for at in range(layout.count)])
            out.put("new_definition pk_%s_AR_DEF `pk_%s_AR (a:%s) = %s a`" % (name, name, layout.labels, arities))
            out.made("pk_%s_AR_DEF" % name, None)
        first = next(at for at in range(layout.count) if "r" not in data.constructors[at].kinds)
        out.prove("pk_%s_EXISTS" % name, "pk_WELL (%s) (pk_ROSE %s NIL)" % (self.arities, layout.witness(first)), self._counted("; pk_WELL_ROSE; ALL"))
        out.put("new_basic_type_definition %s mk_%s dest_%s pk_%s_ABS pk_%s_REP pk_%s_EXISTS" % ((name,) * 6), PUBLIC)
        out.asking.own.arities[name] = len(data.parameters)
        for theorem in ("pk_%s_ABS", "pk_%s_REP"):
            out.made(theorem % name, None)

    def _constructors(self) -> None:
        name, layout, out = self.name, self.layout, self.out
        for at, con in enumerate(self.data.constructors):
            arguments = "".join(" (%s:%s)" % (one.name, tyshow(one.type)) for one in layout.arguments[at])
            body = "(pk_MADE mk_%s dest_%s %s %s:%s)" % (name, name, layout.label(at), layout.children(at), layout.type)
            out.put("new_definition pk_%s_DEF `%s%s = %s`" % (con.name, con.name, arguments, body), PUBLIC, self._span(at))
            out.made("pk_%s_DEF" % con.name, None)
        for at, con in enumerate(self.data.constructors):
            out.constant(con.name, fun(*con.types, self.data.type))

    # ---- Induction

    def _induction(self) -> None:
        layout, name = self.layout, self.name
        hypotheses = layout.every(lambda at: predicates.inductive(layout, at))
        steps: Steps = ["GEN_TAC", self._with("pk_MADE_INDUCT"), "DISCH_THEN MATCH_MP_TAC", *([] if self.is_plain else ["PURE_REWRITE_TAC [pk_%s_AR_DEF]" % name])]
        self.out.prove(self.data.induction, "!%s. %s ==> !x. %s x" % (layout.predicate, hypotheses, layout.predicate), steps + self._parted(0, layout.count), PUBLIC)

    def _parted(self, first: int, number: int) -> Steps:
        """The steps by which what is asked of so many constructors gives what is asked of their labels. No goal has the cases of all: the types of
        labels are as large as all constructors together."""
        if number == 1:
            return [self._inducted(first)]
        half = number_on_the_left(number)
        halves = "MATCH_MP_TAC pk_HALVES THEN BETA_TAC THEN PURE_REWRITE_TAC [sum_CASE] THEN CONJ_TAC"
        parted: Steps = ["MATCH_MP_TAC pk_CUT%d" % half] if half > 1 else []
        return parted + [(halves, [self._parted(first, half), self._parted(first + half, number - half)])]

    def _inducted(self, at: int) -> str:
        """The same of one constructor."""
        steps = ["DISCH_TAC THEN BETA_TAC THEN REWRITE_TAC [FORALL_PAIR; FORALL_ONE; K_THM; pk_ALLK] THEN BETA_TAC",
                 "REWRITE_TAC [FORALL_PAIR; FORALL_ONE; pk_ALLK; FST; SND] THEN BETA_TAC"]
        if "l" in self.data.constructors[at].kinds:
            steps.append("REWRITE_TAC [FST; SND] THEN REWRITE_TAC [pk_ALLK; pk_ALLK_ADD; pk_ALLK_LEN] THEN BETA_TAC "
                         "THEN REWRITE_TAC [pk_ALLK; pk_ALLK_LEN] THEN BETA_TAC THEN REPEAT (GEN_TAC ORELSE DISCH_THEN SUBST1_TAC)")
        steps.append("REPEAT GEN_TAC THEN REWRITE_TAC [ALL_APPEND; ALL; %s]" % self._symmetric(at))
        return " THEN ".join(steps + ["REPEAT DISCH_TAC THEN ASM_REWRITE_TAC [] THEN FIRST_ASSUM MATCH_MP_TAC THEN ASM_REWRITE_TAC []"])

    def _symmetric(self, at: int) -> str:
        """A constructor's definition from right to left."""
        theorem = "pk_%s_DEF" % self.data.constructors[at].name
        for one in self.layout.arguments[at]:
            theorem = "(SPEC `%s:%s` %s)" % (one.name, tyshow(one.type), theorem)
        return "SYM %s" % theorem

    # ---- Recursion

    def _recursion(self) -> None:
        layout, result = self.layout, self.result
        functions = " ".join("(%s:%s)" % (layout.step(at), layout.recursion_type(at, result)) for at in range(layout.count))
        body, unfold = self._recursor(functions)
        self.out.prove(self.data.recursion, "!%s. ?%s:%s->%s. %s" % (functions, layout.function, layout.tight, result, layout.every(self._recursive)), " THEN ".join((
            "REPEAT GEN_TAC THEN %s THEN STRIP_TAC" % self._with("pk_MADE_RECURSION", "; `:%s`,`:B`" % result, body),
            "EXISTS_TAC `%s:%s->%s` THEN REPEAT CONJ_TAC THEN REPEAT GEN_TAC THEN %s" % (layout.function, layout.tight, result, self.definitions),
            "FIRST_ASSUM MATCH_MP_TAC THEN BETA_TAC THEN PURE_REWRITE_TAC [%ssum_CASE] THEN BETA_TAC" % unfold,
            self._counted("; HD; TL; MAP; MAP_APPEND; pk_TAKE; pk_DROP"))), PUBLIC)

    def _recursor(self, functions: str) -> Tuple[str, str]:
        """What is done at a label with its children and their values; and a theorem to unfold it."""
        name, layout = self.name, self.layout
        every = cases([self._at_label(at) for at in range(layout.count)])
        bound = "(a:%s) (l:%s list) (m:%s list)" % (layout.labels, layout.tight, self.result)
        if self.is_plain:
            return "\\%s. %s a" % (bound, every), ""
        self.out.put("new_definition pk_%s_H_DEF `pk_%s_H %s %s = %s a`" % (name, name, functions, bound, every))
        self.out.made("pk_%s_H_DEF" % name, None)
        return "pk_%s_H %s" % (name, functions), "pk_%s_H_DEF; " % name

    def _at_label(self, at: int) -> str:
        layout = self.layout
        parts, values = layout.split(at, "l"), layout.split(at, "m")
        arguments = [parts[one.name] if one.kind in "rl" else layout.projected(at, one.name) for one in layout.arguments[at]]
        arguments += [values[one.name] for one in layout.arguments[at] if one.kind in "rl"]
        return "(\\p. %s)" % " ".join(["(%s:%s)" % (layout.step(at), layout.recursion_type(at, self.result))] + arguments)

    def _recursive(self, at: int) -> str:
        """The equation of a recursive function at a constructor."""
        layout, function = self.layout, self.layout.function
        arguments = [one.name for one in layout.arguments[at]]
        arguments += [("(%s %s)" if one.kind == "r" else "(MAP %s %s)") % (function, one.name) for one in layout.arguments[at] if one.kind in "rl"]
        return "%s %s = %s" % (function, layout.term(at), " ".join([layout.step(at)] + arguments))

    # ---- Equations between constructors

    def _equations(self) -> None:
        distinct, injective = self._pairs()
        one = "%s THEN DISCH_TAC THEN REPEAT CONJ_TAC THEN REPEAT GEN_TAC THEN %s THEN FIRST_ASSUM MATCH_MP_TAC THEN %s" % (
            self._with("pk_MADE_EQ"), self.definitions, self._counted("; sum_INJECTIVE"))
        for kind, parts, proof in (("DISTINCT", distinct, self._apart()), ("INJECTIVE", injective, one + self._injected())):
            for number, part in enumerate(chunks(parts)):
                self.out.prove("%s_%s%s" % (self.name, kind, number + 1 if number else ""), " /\\ ".join(part), proof, PUBLIC)

    def _apart(self) -> str:
        """The steps by which constructors are apart: by a function that has another list of bits at each, which is put into all equations."""
        layout = self.layout
        if not self.is_plain:
            tags = self._tags()
            told = "SPEC `%s:%s->bool list` (INST_TYPE [`:%s`,`:A`] pk_TOLD)" % (tags, layout.tight, layout.type)
            return "REPEAT CONJ_TAC THEN ONCE_REWRITE_TAC [%s] THEN REWRITE_TAC [%s; pk_TAGS; FORALL_SIMP]" % (told, tags)
        function = "%s:%s->bool list" % (layout.function, layout.tight)
        told = "!x y. x = y <=> (%s) x = %s y /\\ x = y" % (function, layout.function)
        return " THEN ".join((
            "MP_TAC %s THEN BETA_TAC THEN DISCH_THEN (X_CHOOSE_TAC `%s`)" % (self._tagging(), function),
            "ASSUME_TAC (SPEC `%s` (INST_TYPE [`:%s`,`:A`] pk_TOLD))" % (function, layout.type),
            "ONCE_REWRITE_TAC [ASSUME `%s`] THEN REWRITE_TAC [ASSUME `%s`; pk_TAGS; FORALL_SIMP]" % (told, self._tagged("(%s)" % function))))

    def _tags(self) -> str:
        """The constant that is such a function, for many constructors: there are as many pairs as constructors squared, and none of them has an assumption."""
        layout, constant = self.layout, "pk_%s_TAG" % self.name
        self.out.put("new_definition %s_DEF `%s = @%s:%s->bool list. %s`" % (
            constant, constant, layout.function, layout.tight, self._tagged(layout.function)))
        self.out.made(constant + "_DEF", None)
        self.out.prove(constant, self._tagged(constant), _chosen(self._tagging(), constant + "_DEF"))
        return constant

    def _tagged(self, function: str) -> str:
        """That a function has its list of bits at each constructor."""
        layout = self.layout
        return layout.every(lambda at: "%s %s = %s" % (function, layout.term(at), _tag(at, layout.count)))

    def _tagging(self) -> str:
        """The theorem that there is such a function."""
        layout, bits = self.layout, "bool list"
        recursion = "(INST_TYPE [`:%s`,`:%s`] %s)" % (bits, self.result, self.data.recursion)
        for at in range(layout.count):
            recursion = "(SPEC `%s` %s)" % (_constant_function(layout, at, bits, "(%s:%s)" % (_tag(at, layout.count), bits)), recursion)
        return recursion

    def _pairs(self) -> Tuple[List[str], List[str]]:
        """That constructors are apart, and that one of equal ones has equal arguments."""
        layout = self.layout
        distinct: List[str] = []
        injective: List[str] = []
        for first in range(layout.count):
            for second in range(layout.count):
                bound = (layout.variables(first) + " " + layout.variables(second, "'")).strip()
                bound = "!%s. " % bound if bound else ""
                left, right = layout.term(first), layout.term(second, "'")
                if first != second:
                    distinct.append("(%s~(%s = %s))" % (bound, left, right))
                elif bound:
                    same = " /\\ ".join("%s = %s'" % (one.name, one.name) for one in layout.arguments[first])
                    injective.append("(%s%s = %s <=> %s)" % (bound, left, right, same))
        return distinct, injective

    def _injected(self) -> str:
        """From equal labels and equal children that the arguments are equal: lists of equal lengths are taken off one by one."""
        ways = [self._peeled(at) for at in range(self.layout.count) if self.data.constructors[at].kinds.count("l") > 1]
        closed = "EQ_TAC THEN STRIP_TAC THEN ASM_REWRITE_TAC []" + (" THEN FIRST [%s]" % "; ".join(ways) if ways else "")
        return " THEN REWRITE_TAC [LIST_EQ_CLAUSES; PAIR_EQ; FORALL_SIMP] THEN " + closed

    def _peeled(self, at: int) -> str:
        lists = [one.name for one in self.layout.arguments[at] if one.kind == "l"]
        type_ = self.layout.tight + " list"

        def appended(names: List[str], mark: str) -> str:
            found = names[-1] + mark
            for name in reversed(names[:-1]):
                found = "(APPEND %s%s %s)" % (name, mark, found)
            return found

        steps = []
        for number, name in enumerate(lists[:-1]):
            rest, whole = lists[number + 1:], lists[number:]
            theorem = "(INST_TYPE [`:%s`,`:A`] pk_APPEND_EQ)" % self.layout.type
            for term in (name, name + "'", appended(rest, ""), appended(rest, "'")):
                theorem = "(SPEC `(%s:%s)` %s)" % (term, type_, theorem)
            lengths = "(ASSUME `LENGTH (%s:%s) = LENGTH (%s':%s)`)" % (name, type_, name, type_)
            both = "(ASSUME `%s = (%s:%s)`)" % (appended(whole, ""), appended(whole, "'"), type_)
            steps.append("STRIP_ASSUME_TAC (MP (MP %s %s) %s)" % (theorem, lengths, both))
        return "(%s THEN ASM_REWRITE_TAC [])" % " THEN ".join(steps)

    # ---- Cases

    def _cases(self) -> None:
        layout, name, out = self.layout, self.name, self.out
        variable = fresh("x", layout.taken | layout.own)
        one_of = " \\/ ".join("(?%s. %s = %s)" % (layout.variables(at), variable, layout.term(at)) if layout.arguments[at] else "%s = %s" % (
            variable, layout.term(at)) for at in range(layout.count))
        steps = [self._picked(at) for at in range(layout.count)]
        opened = predicates.by_induction(self.data)
        whole = "!%s:%s. %s" % (variable, layout.type, one_of)
        if layout.count <= _MOST_PLAIN:
            out.prove(name + "_CASES", whole, "%s THEN %s" % (opened, goals(steps)), PUBLIC)
            return
        constant = "pk_%s_CASED" % name
        out.put("new_definition %s_DEF `%s (%s:%s) <=> %s`" % (constant, constant, variable, layout.type, one_of))
        out.made(constant + "_DEF", None)
        unfold = "PURE_REWRITE_TAC [%s_DEF]" % constant
        parts: Steps = [opened]
        parts = parts + conjuncts([[unfold, one] for one in steps])
        proof: Steps = [("SUBGOAL_THEN `!%s:%s. %s %s` MP_TAC" % (variable, layout.type, constant, variable), [
            parts, [unfold + " THEN DISCH_THEN ACCEPT_TAC"]])]
        out.prove(name + "_CASES", whole, proof, PUBLIC)

    def _picked(self, at: int) -> str:
        """The steps that an element made by a constructor is the one of the disjunction."""
        layout = self.layout
        steps = ["REPEAT GEN_TAC"] * bool(layout.arguments[at]) + ["DISCH_TAC"] * bool(set(self.data.constructors[at].kinds) & set("rl"))
        steps += ["DISJ2_TAC"] * at + ["DISJ1_TAC"] * (at < layout.count - 1)
        steps += ["EXISTS_TAC `%s:%s`" % (one.name, tyshow(one.type)) for one in layout.arguments[at]]
        return " THEN ".join(steps + ["REFL_TAC"])


# ---- What functions need of a type, once it is needed


def need_cases(data: Data, out: Output) -> None:
    """Has the constant of cases of a type stand, with its equations."""
    if data.is_of_library or out.asking.is_constant(data.case):
        return
    layout, result = Layout(data, out.asking), data.result
    functions = " ".join("(%s:%s)" % (layout.step(at), layout.case_type(at, result)) for at in range(layout.count))

    def value(at: int) -> str:
        return " ".join([layout.step(at)] + [one.name for one in layout.arguments[at]])

    theorem = "pk_%s_CASE_DEF" % data.name
    out.put("new_definition %s `%s %s = @%s:%s->%s. %s`" % (
        theorem, data.case, functions, layout.function, layout.tight, result,
        layout.every(lambda at: "%s %s = %s" % (layout.function, layout.term(at), value(at)))))
    out.made(theorem, None)
    recursion = data.recursion
    for at in range(layout.count):
        recursion = "(SPEC `%s` %s)" % (_case_function(layout, at, result), recursion)
    for at in range(layout.count):
        theorem = "(SPEC `%s:%s` %s)" % (layout.step(at), layout.case_type(at, result), theorem)
    applied = "%s %s" % (data.case, " ".join(map(layout.step, range(layout.count))))
    whole = "!%s. %s" % (functions, layout.every(lambda at: "%s %s = %s" % (applied, layout.term(at), value(at))))
    out.prove(data.case, whole, "GEN_TAC THEN " * layout.count + _chosen(recursion, theorem), HIDDEN)
    out.constant(data.case, fun(*[fun(*con.types, result) for con in data.constructors], data.type, result))


def _case_function(layout: Layout, at: int, result: str) -> str:
    applied = " ".join(["(%s:%s)" % (layout.step(at), layout.case_type(at, result))] + [one.name for one in layout.arguments[at]])
    return _constant_function(layout, at, result, applied)


def _constant_function(layout: Layout, at: int, result: str, body: str) -> str:
    """The function of a constructor's arguments, and of the values of those of the type itself, on which what it is doesn't depend."""
    if not layout.arguments[at]:
        return body
    values = ["(rr%d:%s)" % (place, result if one.kind == "r" else result + " list") for place, one in enumerate(layout.arguments[at]) if one.kind in "rl"]
    return "\\%s. %s" % (" ".join([layout.variables(at)] + values), body)


def _tag(at: int, of: int) -> str:
    """The number of a constructor, of so many, as a list of bits, the least one first."""
    found = "NIL"
    for bit in reversed(range((of - 1).bit_length())):
        found = "(CONS %s %s)" % ("T" if at >> bit & 1 else "F", found)
    return found


def _chosen(recursion: str, definition: str) -> str:
    """The proof that a constant that is chosen has the property by which it is."""
    return "MP_TAC %s THEN BETA_TAC THEN MATCH_MP_TAC pk_CHOSEN THEN SUBST1_TAC (SYM %s) THEN BETA_TAC THEN DISCH_THEN ACCEPT_TAC" % (recursion, definition)


def need_size(data: Data, out: Output) -> None:
    """Has the size of a type's elements stand, and that parts are smaller."""
    if data.is_of_library or not data.size or out.asking.is_constant(data.size):
        return
    layout = Layout(data, out.asking)
    theorem = "pk_%s_SIZE_DEF" % data.name
    out.put("new_definition %s `%s = @%s:%s->num. %s`" % (theorem, data.size, layout.function, layout.tight, _size_equations(layout, layout.function)))
    out.made(theorem, None)
    recursion = "(INST_TYPE [`:num`,`:%s`] %s)" % (data.result, data.recursion)
    for at in range(layout.count):
        recursion = "(SPEC `%s` %s)" % (_size_function(layout, at), recursion)
    out.prove(data.size, _size_equations(layout, data.size), _chosen(recursion, theorem), PUBLIC)
    out.constant(data.size, fun(data.type, ("num",)))
    smaller = [layout.forall(at, "lt (%s %s) (%s %s)" % (data.size, one.name, data.size, layout.term(at)))
               for at in range(layout.count) for one in layout.arguments[at] if one.kind == "r"]
    if data.less:
        out.prove(data.less, " /\\ ".join(smaller),
                  "REWRITE_TAC [%s; LT_SUC_LE] THEN REPEAT CONJ_TAC THEN REPEAT GEN_TAC THEN REWRITE_TAC [LE_REFL; LE_ADD; LE_ADDR] THEN "
                  "REPEAT (MATCH_MP_TAC pk_LESS_RIGHT THEN REWRITE_TAC [LE_REFL; LE_ADD; LE_ADDR])" % data.size, PUBLIC)


def _size_equations(layout: Layout, head: str) -> str:
    return layout.every(lambda at: "%s %s = %s" % (head, layout.term(at), _size(layout, at, "(%s %%s)" % head, "(pk_SUM (MAP %s %%s))" % head)))


def _size(layout: Layout, at: int, of_part: str, of_list: str) -> str:
    parts = [(of_part if one.kind == "r" else of_list) % one.name for one in layout.arguments[at] if one.kind in "rl"]
    return "SUC %s" % added(parts) if parts else "_0"


def _size_function(layout: Layout, at: int) -> str:
    values = " ".join("(r_%s:%s)" % (one.name, "num" if one.kind == "r" else "num list") for one in layout.arguments[at] if one.kind in "rl")
    size = _size(layout, at, "r_%s", "(pk_SUM r_%s)")
    return "\\%s %s. %s" % (layout.variables(at), values, size) if layout.arguments[at] else size
