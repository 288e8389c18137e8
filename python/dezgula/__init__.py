"""The minimal natural solutions of systems of linear equations, listed by the proved calls of Dezgula.

>>> import dezgula
>>> for row in sorted(dezgula.basis([[1, -1, 1, -1], [0, 1, -1, 0]])): print(row)
(0, 1, 1, 0)
(1, 0, 0, 1)

`basis` lists them by the engine, for at most 32 equations and 32 unknowns. `walk`, `with_rights`, `from_lower`, `desks` and `single_file` list by the walk,
for at most 8 and 16. `why`, `plan` and `locate` are questions about a list. `reformulates` says whether another map may stand in the place of one, and
`projected` gives its list without the further unknowns. `Plain`, `SingleFile`, `Rights`, `LowerBound`, `Desk`, `Training`, `TrainingLowerBound` and, of the
engine, `Solver` are runs that can be paused and gone on with; a solver can be saved and loaded and can start from a list of other equations, and `Several`
are up to eight plain runs in turns. `read_map`, `read_equation`, `write_equation`, `read_system`, `write_list` and `read_list` are texts and files. A
refusal is the exception `Refused` with its number, its place and a sentence.

The library is the file that DEZGULA_LIBRARY names, else the one beside this module, in the project around it, or of the system, in this order.
"""

from ._engine import Solver
from ._library import LIBRARY as _LIBRARY
from ._library import LibraryMissing, Refused
from ._questions import FromLower, Order, Plan, Reason, WithRights, basis, desks, from_lower, locate, plan, single_file, walk, why, with_rights
from ._reformulation import Reformulation, projected, reformulates
from ._runs import Desk, LowerBound, Plain, Rights, Run, SingleFile, Told, Training, TrainingLowerBound, TwoLists
from ._several import InTurn, Several
from ._text import Equation, ListFile, Typed, read_equation, read_list, read_map, read_system, write_equation, write_list

__version__: str = _LIBRARY.dezgula_version().decode()

__all__ = [
    "Desk", "Equation", "FromLower", "InTurn", "LibraryMissing", "ListFile", "LowerBound", "Order", "Plain", "Plan", "Reason", "Reformulation", "Refused",
    "Rights", "Run", "Several", "SingleFile", "Solver", "Told", "Training", "TrainingLowerBound", "TwoLists", "Typed", "WithRights", "basis", "desks",
    "from_lower", "locate", "plan", "projected", "read_equation", "read_list", "read_map", "read_system", "reformulates", "single_file", "walk", "why",
    "with_rights", "write_equation", "write_list",
]  # fmt: skip
