"""Windows' names for the numbers of a script (docs/PROFILE.md has the rules)."""

from __future__ import annotations

from enum import IntEnum, IntFlag


class PAGE(IntFlag):
    """Protections of a page. GUARD stands beside one of the others."""

    NOACCESS = 0x01
    READONLY = 0x02
    READWRITE = 0x04
    WRITECOPY = 0x08
    EXECUTE = 0x10
    EXECUTE_READ = 0x20
    EXECUTE_READWRITE = 0x40
    EXECUTE_WRITECOPY = 0x80
    GUARD = 0x100


class MEM(IntFlag):
    """Types of `alloc` and `free`, and the states and types that a query answers."""

    COMMIT = 0x1000
    RESERVE = 0x2000
    DECOMMIT = 0x4000
    RELEASE = 0x8000
    FREE = 0x10000
    PRIVATE = 0x20000
    MAPPED = 0x40000
    WRITE_WATCH = 0x200000


class SEC(IntFlag):
    """How a section of the paging file begins, beside its protection."""

    RESERVE = 0x4000000
    COMMIT = 0x8000000


class FILE_MAP(IntEnum):
    """The access of a view."""

    COPY = 0x1
    WRITE = 0x2
    READ = 0x4
    ALL_ACCESS = 0xF001F


class ERROR(IntEnum):
    """Codes of refused calls."""

    FILE_NOT_FOUND = 2
    ACCESS_DENIED = 5
    INVALID_HANDLE = 6
    INVALID_PARAMETER = 87
    ALREADY_EXISTS = 183
    INVALID_ADDRESS = 487
    MAPPED_ALIGNMENT = 1132
    COMMITMENT_LIMIT = 1455


class STATUS(IntEnum):
    """Statuses of accesses that raise."""

    GUARD_PAGE_VIOLATION = 0x80000001
    ACCESS_VIOLATION = 0xC0000005
    IN_PAGE_ERROR = 0xC0000006
    STACK_OVERFLOW = 0xC00000FD


def spelled(flags: IntFlag) -> str:
    """A number as Windows' headers write it: `PAGE_READWRITE | PAGE_GUARD`; 0 is `0`."""
    prefix = type(flags).__name__
    parts = [f"{prefix}_{one.name}" for one in type(flags) if one & flags]
    return " | ".join(parts) or "0"
