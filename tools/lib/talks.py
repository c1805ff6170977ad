"""A run of the program that is told a script or opens a project, and is then asked line by line; nothing of it is kept anywhere."""
from __future__ import annotations

import contextlib
import subprocess
import threading
from typing import BinaryIO, Iterator, Optional

from .frame import ToolError
from .replies import Answer, Ending, ReplyError, answers_of, reply_of


def feed(script: str, pipe: BinaryIO) -> None:
    """Hands the lines of a script to the program, the last one with an LF too."""
    last = b'\n'
    with contextlib.suppress(BrokenPipeError), open(script, 'rb') as lines:
        for last in lines:
            pipe.write(last)
        pipe.write(b'' if last.endswith(b'\n') else b'\n')
        pipe.flush()


def endless(script: str, is_over: list[bool]) -> Iterator[bytes]:
    """The lines of a script; when they are over it says so, and gives one more, which is skipped."""
    with open(script, 'rb') as lines:
        yield from lines
    is_over.append(True)
    yield b''


class Talk:
    """A running program, and what stands at the end of what it was told."""

    def __init__(self, program: list[str], project: Optional[str] = None) -> None:
        words = ['replay'] + ([project] if project else [])
        self.process = subprocess.Popen(program + words, stdin=subprocess.PIPE, stdout=subprocess.PIPE)
        assert self.process.stdin is not None and self.process.stdout is not None
        self.input, self.output = self.process.stdin, self.process.stdout
        self.ending = Ending()
        self.number = 0

    def tell(self, script: str, replies: Optional[BinaryIO] = None) -> None:
        """Tells a script. A ReplyError where these are not the replies to it."""
        feeder = threading.Thread(target=feed, args=(script, self.input), daemon=True)
        feeder.start()
        is_over: list[bool] = []
        for answer in answers_of(endless(script, is_over), self.output):
            if is_over:
                break
            if answer.reply and replies is not None and reply_of(replies) != answer.reply:
                raise ReplyError('line %d has another reply now: the replies are not those of this script, or it was replayed on a saved project, '
                                 'which you name in place of both' % answer.number)
            self.take(answer)
        feeder.join()

    def take(self, answer: Answer) -> None:
        self.ending.take(answer)
        self.number = answer.number

    def ask(self, line: str) -> list[str]:
        """The reply to one more line."""
        try:
            self.input.write(line.encode() + b'\n')
            self.input.flush()
        except BrokenPipeError:
            pass
        reply = reply_of(self.output)
        if not reply or reply[0].startswith('project refused'):
            raise ToolError('the program ended with status %d%s' % (self.process.wait(), ': ' + reply[0] if reply else ''))
        return reply

    def asked(self, line: str) -> list[str]:
        """The same, and what it tells of the state is taken."""
        reply = self.ask(line)
        self.take(Answer(self.number + 1, line, reply))
        return reply

    def close(self) -> None:
        with contextlib.suppress(BrokenPipeError):
            self.input.close()
        self.output.close()
        self.process.wait()

    def __enter__(self) -> 'Talk':
        return self

    def __exit__(self, *fault: object) -> None:
        self.close()
