"""The plain program of tests/questions in its parts. What it knows of views, commits and the file is in tests/tables, which is a module here."""

import sys
from importlib.machinery import SourceFileLoader
from importlib.util import module_from_spec, spec_from_loader
from pathlib import Path


def neighbour(name):
    """A program of the folder of tests, as a module."""
    loader = SourceFileLoader(name, str(Path(__file__).resolve().parent.parent / name))
    sys.modules[name] = module = module_from_spec(spec_from_loader(name, loader))
    loader.exec_module(module)
    return module


tables = neighbour("tables")
