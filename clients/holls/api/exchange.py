"""Theorems from HOL Light and to it, over a project's theories: what `holls import` and `holls export` do, as values."""

from __future__ import annotations

from dataclasses import dataclass
from typing import TYPE_CHECKING, Collection, Mapping, Tuple

from holls.api.values import ProverError
from holls.checking import Unit
from holls.exchange import exporting, hol_light, importing, neutral
from holls.exchange.deriving import MOST_CHARACTERS
from holls.exchange.ocaml import Unwritable
from holls.prover.asking import Silent

if TYPE_CHECKING:
    from holls.api.project import Project


@dataclass(frozen=True)
class Brought:
    """What came over from a record: theories' texts by their names, each behind those that it imports, and the theorems in them; `derived` are
    those of which a part is a recorded derivation, and `missing` has the reasons of those that didn't come."""

    texts: Mapping[str, str]
    theorems: Tuple[str, ...]
    derived: Tuple[str, ...]
    missing: Mapping[str, str]


def bring(project: "Project", record: str, sources: Collection[str] = (), names: Collection[str] = (), seconds: float = importing.SECONDS,
          axioms: bool = False, derivations: int = MOST_CHARACTERS) -> Brought:
    """The theorems of some of HOL Light's files, or of some names, that a record has and the project's theories haven't."""
    units = [Unit(file, "", project.imports(file)) for file in project.files.values()]
    try:
        with open(record, encoding="latin-1") as lines:
            read = neutral.read(lines)
        importer = importing.Importer(read, units, [project.prover.program], seconds, axioms, derivations)
        outcome = importer.bring(frozenset(sources), frozenset(names))
    except (OSError, ValueError, Silent) as error:
        raise ProverError("nothing can be brought from %s: %s" % (record, error)) from None
    return Brought(
        dict(importing.texts(outcome.brought, list(project.files))), tuple(one.name for one in outcome.brought),
        tuple(one.name for one in outcome.brought if one.is_derived), dict(outcome.missing))


def to_ocaml(project: "Project", sample: int = 0) -> str:
    """The project's theories as OCaml that HOL Light runs; with a sample the proofs of so many theorems, and the others stated."""
    try:
        return exporting.written(list(project.files.values()), sample)
    except Unwritable as error:
        raise ProverError(str(error)) from None


def check_by_hol_light(project: "Project", sample: int = 0) -> hol_light.Outcome:
    """How the project's theorems fare in HOL Light, where that is installed: by its own functions, by ours, refused."""
    try:
        return hol_light.outcome(hol_light.run(to_ocaml(project, sample)))
    except (hol_light.NoHolLight, OSError) as error:
        raise ProverError(str(error)) from None
