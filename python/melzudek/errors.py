"""What is raised: an answer that is not `ok`, a run that ended, a user's mistake."""

from __future__ import annotations

from .names import ERROR, STATUS


class Mistake(Exception):
    """Something that was given cannot be used. Its text is one sentence: the cause, what to do.

    The command `melzudek` prints it and ends with status 1, without a traceback.
    """


class Missing(Mistake, ImportError):
    """A program or a library is not there."""


class Answered(Exception):
    """A line was answered, and not with `ok`."""

    line: str  # as it was sent


class Refused(Answered, OSError):
    """`error N`: a call that Windows refuses. It changed nothing."""

    def __init__(self, code: int, line: str) -> None:
        self.line = line
        self.winerror = code  # a plain attribute: Python has `winerror` on Windows alone
        self.name = f"ERROR_{ERROR(code).name}"
        super().__init__(code, f"{self.name} ({code}): {line}")

    def __str__(self) -> str:
        return f"{self.name} ({self.winerror}): {self.line}"

    def __reduce__(self) -> tuple[type[Refused], tuple[int, str]]:
        return type(self), (self.winerror, self.line)


class Raised(Answered):
    """`raise STATUS`: an access that raises an exception in its thread."""

    def __init__(self, status: int, line: str, address: int) -> None:
        self.line = line
        self.status = STATUS(status)
        self.name = f"STATUS_{self.status.name}"
        self.address = address  # of the access
        super().__init__(status, line, address)

    def __str__(self) -> str:
        return f"{self.name} (0x{self.status:08X}) at 0x{self.address:08X}: {self.line}"


class Busy(Answered):
    """`busy`: the thread keeps a pending access, or has a stack."""

    def __init__(self, line: str) -> None:
        self.line = line
        super().__init__(line)


class Full(Answered):
    """`full`: no more processes, file blocks, `fail` lines or slots are to be had."""

    def __init__(self, line: str) -> None:
        self.line = line
        super().__init__(line)


class DeviceFault(Answered):
    """`fault`: a device call of the line failed."""

    def __init__(self, line: str) -> None:
        self.line = line
        super().__init__(line)


class Ended(Exception):
    """The run ended before the line was answered, or was interrupted while it was.

    `status` is that of mmsim, below 0 a signal, and None where it still ran; `text` is its last
    text; `answers` are those that came before the end to lines of the same call.
    """

    ENDINGS = {
        0: "its script ended",
        1: "it ran out of memory",
        2: "its words are no form",
        3: "a line is none of a script's forms",
        4: "the script could not be read",
        5: "the answers could not be written",
        6: "the moves could not be written",
        7: "a device could not be opened",
        8: "a line has more than 256 bytes, or the script more than 1,000,000 lines",
    }

    def __init__(self, status: int | None, text: str, answers: tuple[str, ...] = ()) -> None:
        self.status = status
        self.text = text
        self.answers = answers
        super().__init__(status, text, answers)

    def __str__(self) -> str:
        if self.status is None:
            return self.text
        why = self.ENDINGS.get(self.status, f"signal {-self.status}")
        more = f" ({self.text})" if self.text else ""
        return f"mmsim ended with status {self.status}: {why}{more}"
