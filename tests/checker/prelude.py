"""The prelude: its types, its constants, and its definitions and axioms, from Constants.antt and Prelude.antt of hol_formulas."""

from typing import Dict, Tuple

from .terms import BOOL, Term, Type, Variable, bind, equality_type, equation, fun_type

A: Type = ("TyVar", "A")
B: Type = ("TyVar", "B")
IND: Type = ("TyApp", "ind", ())
UNARY = fun_type(BOOL, BOOL)
BINARY = fun_type(BOOL, UNARY)


def quantifier_type(ty: Type) -> Type:
    return fun_type(fun_type(ty, BOOL), BOOL)


TYPES: Dict[str, int] = {"bool": 0, "fun": 2, "ind": 0}
CONSTANTS: Dict[str, Type] = {
    "=": equality_type(A),
    "@": fun_type(fun_type(A, BOOL), A),
    "T": BOOL,
    "F": BOOL,
    "/\\": BINARY,
    "\\/": BINARY,
    "==>": BINARY,
    "~": UNARY,
    "!": quantifier_type(A),
    "?": quantifier_type(A),
    "?!": quantifier_type(A),
    "ONE_ONE": fun_type(fun_type(A, B), BOOL),
    "ONTO": fun_type(fun_type(A, B), BOOL),
}
AXIOMS = ("ETA_AX", "SELECT_AX", "INFINITY_AX")

TRUE: Term = ("fixed", "T", BOOL)
FALSE: Term = ("fixed", "F", BOOL)


def application(function: Term, *arguments: Term) -> Term:
    for argument in arguments:
        function = ("app", function, argument)
    return function


def binary(sign: str, left: Term, right: Term) -> Term:
    return application(("fixed", sign, BINARY), left, right)


def quantified(sign: str, variable: Variable, body: Term) -> Term:
    return ("app", ("fixed", sign, quantifier_type(variable[1])), bind(variable, body))


def forall(*parts: Tuple) -> Term:
    *variables, body = parts
    for variable in reversed(variables):
        body = quantified("!", variable, body)
    return body


def abstraction(*parts: Tuple) -> Term:
    *variables, body = parts
    for variable in reversed(variables):
        body = bind(variable, body)
    return body


def defining(name: str, right: Term) -> Term:
    return equation(CONSTANTS[name], ("fixed", name, CONSTANTS[name]), right)


def statements() -> Dict[str, Term]:
    """What `statement_of` gives of each."""
    p, q, r, x, y = ("p", BOOL), ("q", BOOL), ("r", BOOL), ("x", A), ("y", A)
    x1, x2, of_b = ("x1", A), ("x2", A), ("y", B)
    predicate, function, pair, eta = ("P", fun_type(A, BOOL)), ("f", fun_type(A, B)), ("f", BINARY), ("t", fun_type(A, B))
    infinite = ("f", fun_type(IND, IND))

    def v(variable: Variable) -> Term:
        return ("free", *variable)

    def of(variable: Variable, argument: Variable) -> Term:
        return ("app", v(variable), v(argument))

    def paired(left: Term, right: Term) -> Term:
        return bind(pair, application(v(pair), left, right))

    def property_at(sign: str) -> Term:
        return ("fixed", sign, fun_type(infinite[1], BOOL))

    implies = lambda left, right: binary("==>", left, right)  # noqa: E731
    at_most_once = forall(x, y, implies(binary("/\\", of(predicate, x), of(predicate, y)), equation(A, v(x), v(y))))
    exists = ("app", ("fixed", "?", CONSTANTS["?"]), v(predicate))
    injective = forall(x1, x2, implies(equation(B, of(function, x1), of(function, x2)), equation(A, v(x1), v(x2))))
    return {
        "T_DEF": defining("T", equation(UNARY, bind(p, v(p)), bind(p, v(p)))),
        "AND_DEF": defining("/\\", abstraction(p, q, equation(fun_type(BINARY, BOOL), paired(v(p), v(q)), paired(TRUE, TRUE)))),
        "IMP_DEF": defining("==>", abstraction(p, q, equation(BOOL, binary("/\\", v(p), v(q)), v(p)))),
        "FORALL_DEF": defining("!", abstraction(predicate, equation(predicate[1], v(predicate), bind(x, TRUE)))),
        "EXISTS_DEF": defining("?", abstraction(predicate, forall(q, implies(forall(x, implies(of(predicate, x), v(q))), v(q))))),
        "OR_DEF": defining("\\/", abstraction(p, q, forall(r, implies(implies(v(p), v(r)), implies(implies(v(q), v(r)), v(r)))))),
        "F_DEF": defining("F", forall(p, v(p))),
        "NOT_DEF": defining("~", abstraction(p, implies(v(p), FALSE))),
        "EXISTS_UNIQUE_DEF": defining("?!", abstraction(predicate, binary("/\\", exists, at_most_once))),
        "ETA_AX": forall(eta, equation(eta[1], bind(x, of(eta, x)), v(eta))),
        "SELECT_AX": forall(predicate, x, implies(of(predicate, x), ("app", v(predicate), ("app", ("fixed", "@", CONSTANTS["@"]), v(predicate))))),
        "ONE_ONE": defining("ONE_ONE", abstraction(function, injective)),
        "ONTO": defining("ONTO", abstraction(function, forall(of_b, quantified("?", x, equation(B, v(of_b), of(function, x)))))),
        "INFINITY_AX": quantified(
            "?",
            infinite,
            binary("/\\", ("app", property_at("ONE_ONE"), v(infinite)), ("app", ("fixed", "~", UNARY), ("app", property_at("ONTO"), v(infinite)))),
        ),
    }


STATEMENTS = statements()
