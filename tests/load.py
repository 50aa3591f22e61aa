"""Test scripts as modules, so that one may use what another has."""
import importlib.machinery
import importlib.util
import os
import sys

TESTS = os.path.dirname(os.path.abspath(__file__))


def load(name):
    """A file of tests/ as a module; its name ends in no .py."""
    sys.dont_write_bytecode = True
    loader = importlib.machinery.SourceFileLoader(os.path.basename(name), os.path.join(TESTS, name))
    module = importlib.util.module_from_spec(importlib.util.spec_from_loader(loader.name, loader))
    loader.exec_module(module)
    return module
