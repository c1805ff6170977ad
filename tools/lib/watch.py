"""A limit of time for what waits on a source: a view in it may never end."""
from __future__ import annotations

import contextlib
import os
import threading
import time
from typing import Iterator, Optional, TypeVar

from . import outputs
from .frame import COULD_NOT, say

Each = TypeVar('Each')
SECONDS = 300
PAUSE = 0.2


class Watch:
    """Ends the process with status 2 and a sentence where a wait lasts longer than so many seconds; 0 is no limit."""

    def __init__(self) -> None:
        self.name, self.seconds = 'topo', float(SECONDS)
        self.until: Optional[float] = None
        self.process: Optional[int] = None
        self.thread: Optional[threading.Thread] = None

    def run(self) -> None:
        while True:
            time.sleep(PAUSE)
            if self.until is not None and time.monotonic() > self.until:
                say('%s: the source gave nothing for %g seconds (--timeout)' % (self.name, self.seconds))
                outputs.remove_begun()
                self.end_process()
                os._exit(COULD_NOT)

    def end_process(self) -> None:
        """Ends the program that is waited for, where it is one."""
        if self.process is not None:
            with contextlib.suppress(ProcessLookupError):
                os.kill(self.process, 9)

    @contextlib.contextmanager
    def waiting(self) -> Iterator[None]:
        if self.thread is None and self.seconds:
            self.thread = threading.Thread(target=self.run, daemon=True)
            self.thread.start()
        self.until = time.monotonic() + self.seconds if self.seconds else None
        try:
            yield
        finally:
            self.until = None


WATCH = Watch()


def watched(found: Iterator[Each]) -> Iterator[Each]:
    """What an iterator gives, each of which has to come in time."""
    while True:
        with WATCH.waiting():
            each = next(found, None)
        if each is None:
            return
        yield each
