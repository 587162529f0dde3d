"""hilldale-lab: files of instruments, questions, pictures and reports around hilldale.

hilldale's numbers are proved. This package is not: it asks the program, shows the exact fractions that it answers, and
computes no parameter of the standard itself.

    import hilldale_lab as lab
    s = lab.read("part.sur")                    # or lab.Surface(z, dx="1e-6", dy="1e-6", step="1e-9")
    s.mask_above("5 um").open("flat 3x3")
    s.param("S10z")                             # Value(S10z: 0.47505 um  (9501/20 steps))
"""

from importlib import import_module
from typing import TYPE_CHECKING

if TYPE_CHECKING:
    from hilldale_lab.errors import InputRefused, LabError, MissingPackage
    from hilldale_lab.height_map import HeightMap
    from hilldale_lab.job import Job
    from hilldale_lab.labels import Disagreement
    from hilldale_lab.program import ProgramFault
    from hilldale_lab.reading import read
    from hilldale_lab.regions import Regions
    from hilldale_lab.surface import Surface
    from hilldale_lab.values import Value

__all__ = [
    "Disagreement",
    "HeightMap",
    "InputRefused",
    "Job",
    "LabError",
    "MissingPackage",
    "ProgramFault",
    "Regions",
    "Surface",
    "Value",
    "read",
]

# The module of each name. It is imported when the name is used: a command says which package is missing before that.
_PLACES = {
    "Disagreement": "labels",
    "HeightMap": "height_map",
    "InputRefused": "errors",
    "Job": "job",
    "LabError": "errors",
    "MissingPackage": "errors",
    "ProgramFault": "program",
    "Regions": "regions",
    "Surface": "surface",
    "Value": "values",
    "read": "reading",
}


def __getattr__(name: str) -> object:
    if name not in _PLACES:
        raise AttributeError(f"hilldale_lab has no {name}")
    return getattr(import_module(f"hilldale_lab.{_PLACES[name]}"), name)
