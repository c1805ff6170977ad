"""Tests that are plain functions, for unittest, as tools/tests/run loads them where pytest is not installed."""
from __future__ import annotations

import contextlib
import inspect
import unittest
from types import ModuleType
from typing import Any, Callable

from working import GIVEN


class Plain(unittest.TestCase):
    """A plain function with what it names as its parameters."""

    def __init__(self, module: ModuleType, function: Callable[..., None]) -> None:
        super().__init__('call')
        self.name, self.function = '%s.%s' % (module.__name__, function.__name__), function

    def id(self) -> str:
        return self.name

    __str__ = id

    def call(self) -> None:
        with contextlib.ExitStack() as stack:
            self.function(**{name: stack.enter_context(contextlib.contextmanager(GIVEN[name])()) for name in inspect.signature(self.function).parameters})


class Loader(unittest.TestLoader):
    """Loads the classes of a module, and its plain functions."""

    def loadTestsFromModule(self, module: ModuleType, *words: Any, **more: Any) -> unittest.TestSuite:
        suite = super().loadTestsFromModule(module, *words, **more)
        functions = inspect.getmembers(module, lambda it: inspect.isfunction(it) and it.__module__ == module.__name__)
        suite.addTests(Plain(module, function) for name, function in functions if name.startswith('test_'))
        return suite
