"""Loads a package without parts of it that take long to load and aren't used here. They are loaded once they are."""
from __future__ import annotations

import sys
from contextlib import contextmanager
from importlib.machinery import ModuleSpec, PathFinder
from importlib.util import LazyLoader
from typing import Any, Collection, Iterator, Optional


class Finder:
    """Finds these modules, each of which is loaded when something of it is used."""

    def __init__(self, names: Collection[str]) -> None:
        self.names = names
        self.found: dict[str, ModuleSpec] = {}

    def find_spec(self, name: str, path: Any = None, target: Any = None) -> Optional[ModuleSpec]:
        spec = PathFinder.find_spec(name, path, target) if name in self.names else None
        if spec is not None and spec.loader is not None:
            spec.loader = LazyLoader(spec.loader)
            self.found[name] = spec
        return spec


@contextmanager
def later(*names: str) -> Iterator[None]:
    """Within it these modules are loaded later. Who imports one of them afterwards loads it at once, as usual."""
    finder = Finder(set(names) - sys.modules.keys())
    sys.meta_path.insert(0, finder)
    try:
        yield
    finally:
        sys.meta_path.remove(finder)
        for name in finder.found:
            sys.modules.pop(name, None)
