"""The frame round every tool: what it tells on standard error, and its status where it could not do what was asked."""
from __future__ import annotations

import argparse
import os
import re
import sys
from typing import Callable, NoReturn, Optional

from . import outputs

COULD_NOT = 2
INTERRUPTED = 130
UNSAFE = re.compile('[\x00-\x08\x0a-\x1f\x7f-\x9f\u2028\u2029\ud800-\udfff]')


class ToolError(Exception):
    """Why a tool cannot do what was asked; its text is what the user reads."""


def printable(text: str) -> str:
    """A text in one line, with what would control a terminal written as Python writes it."""
    return UNSAFE.sub(lambda found: found[0].encode('unicode_escape').decode(), text)


def say(text: str) -> None:
    """A line on standard error, where that is open."""
    if sys.stderr is None:
        return
    sys.stderr.write(printable(text) + '\n')
    sys.stderr.flush()


def reason_of(fault: BaseException) -> str:
    """What is told of a fault: its own text, or of one that no tool expects also its name."""
    if isinstance(fault, OSError) and fault.strerror:
        return str(fault)
    if isinstance(fault, MemoryError):
        return 'there is not enough memory'
    if isinstance(fault, (ValueError, ArithmeticError, RecursionError)):
        return 'what it was given is nothing that it can read: %s' % fault
    return 'a fault of the tool itself, which you may report: %s: %s' % (type(fault).__name__, fault)


class Words(argparse.ArgumentParser):
    """The words of a tool, which its own text describes: `--help` prints that."""

    def __init__(self, name: str, text: Optional[str]) -> None:
        super().__init__(prog=name, allow_abbrev=False)
        self.text = (text or '').strip() + '\n'

    def format_help(self) -> str:
        return self.text

    def error(self, message: str) -> NoReturn:
        say('%s: %s; --help says more' % (self.prog, message))
        sys.exit(COULD_NOT)


def framed(name: str, tool: Callable[[], int], *expected: type[Exception]) -> int:
    """The status of a tool: what it returns, or 2 with a sentence where it could not. The faults that it expects tell themselves."""
    if sys.stdout is None:
        say('%s: standard output is closed' % name)
        return COULD_NOT
    try:
        status = tool()
        sys.stdout.flush()
        return status
    except expected as fault:
        say('%s: %s' % (name, fault))
    except KeyboardInterrupt:
        return INTERRUPTED
    except BrokenPipeError:
        os.dup2(os.open(os.devnull, os.O_WRONLY), sys.stdout.fileno())
    except Exception as fault:
        if os.environ.get('TOPO_TRACEBACK'):
            raise
        say('%s: %s' % (name, reason_of(fault)))
    finally:
        outputs.remove_begun()
    return COULD_NOT
