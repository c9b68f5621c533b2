"""The programs of this folder whose files' names have no ending, as modules."""

from __future__ import annotations

import os
import sys
from importlib.machinery import SourceFileLoader
from importlib.util import module_from_spec, spec_from_loader
from types import ModuleType

HERE = os.path.dirname(os.path.abspath(__file__))


def script(name: str) -> ModuleType:
    """The program of this name, loaded."""
    loader = SourceFileLoader(name, os.path.join(HERE, name))
    spec = spec_from_loader(name, loader)
    assert spec is not None
    module = module_from_spec(spec)
    sys.modules[name] = module
    loader.exec_module(module)
    return module
