"""A trial, a kind of trials, and the modules of the other implementation that have no ending."""

from __future__ import annotations

from dataclasses import dataclass, field, replace
from importlib.machinery import SourceFileLoader
from importlib.util import module_from_spec, spec_from_loader
from types import ModuleType
from typing import Callable, Dict, Iterator, List, Optional

from trials.bench import Bench, How
from trials.programs import TOOLS

from traces import Case  # noqa: E402


@dataclass(frozen=True)
class Trial:
    """Files and arguments for one program, or for several that are judged together."""
    kind: str
    program: str
    case: Case
    how: How = field(default_factory=How)

    @property
    def arguments(self) -> List[str]:
        """The arguments of the first run."""
        return self.case.runs[0]

    def with_files(self, files: Dict[str, bytes]) -> "Trial":
        """The trial with these files."""
        return replace(self, case=replace(self.case, files=files))


@dataclass(frozen=True)
class Kind:
    """`share` is how many of a hundred seeds have it; `needs_built` that it says nothing of a program that is run by an interpreter."""
    name: str
    share: int
    trials: Callable[[int], Iterator[Trial]]
    judge: Callable[[Bench, Trial], Optional[str]]
    needs_built: bool = False


def script(name: str) -> ModuleType:
    """A program of tools/reference whose file has no ending, as a module."""
    path = "%s/reference/%s" % (TOOLS, name)
    spec = spec_from_loader(name, SourceFileLoader(name, path))
    assert spec is not None and spec.loader is not None
    module = module_from_spec(spec)
    spec.loader.exec_module(module)
    return module
