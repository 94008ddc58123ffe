"""Python's interface: provers, projects, theories, proofs and their states (docs/PYTHON.md).

    from holls.api import Project, Prover

    with Prover() as prover:
        lists = Project(prover, "theories").theory("lists")
        state = lists.proof("LENGTH_APPEND").state
        after = state.apply("MATCH_MP_TAC LIST_INDUCT THEN BETA_TAC")
        print(after)
"""

from holls.api.project import Project, Theory, Unknown
from holls.api.proof import Proof, State
from holls.api.prover import Prover
from holls.api.values import CannotStand, Checked, Finding, Goal, Kind, ProgramDied, ProverError, Refused, Theorem
from holls.search import BadQuery
from holls.server import NoServer

__all__ = [
    "BadQuery", "CannotStand", "Checked", "Finding", "Goal", "Kind", "NoServer", "ProgramDied", "Project", "Proof", "Prover", "ProverError",
    "Refused", "State", "Theorem", "Theory", "Unknown",
]
