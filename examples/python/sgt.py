"""The proved auditor, certificate maker and check of histories of `sgt`, from Python: `audit`, `serial`, `certify`, `explain` and
`check` of some bytes.

The library is `libsgt.so`: the file that SGT_LIB names, or in the folder that it names, else in `examples/out`, where
`examples/run.sh` puts it.

usage: python3 sgt.py [audit|serial|certify|explain|check] < BUNDLE     (prints what the program `sgt` prints, and ends with its status)
"""
import ctypes
import os
import sys
from typing import NamedTuple, Union

YES, NO, UNREADABLE, MEMORY, LONG, ROOM = 0, 1, 2, 3, 4, 5
VERSION = 1
TEXTS = ("serial", "certify", "explain", "check")


class Yes(NamedTuple):
    """The bytes spell a valid bundle, with so many decisions of each kind."""
    committed: int
    refused: int
    withdrawn: int

    def __str__(self):
        return f"yes {self.committed} committed {self.refused} refused {self.withdrawn} withdrawn"


class No(NamedTuple):
    """The bytes have a fault, at this line first, counted from 1. The fault is a number from 1 to 19."""
    line: int
    fault: int

    def __str__(self):
        return f"no line {self.line} F{self.fault}"

    def __bool__(self):
        return False


class TooLong(ValueError):
    """The bytes are too many for the library: `SGT_LONG` of sgt.h."""


class Unreadable(ValueError):
    """A line of the history can't be read; the text says which and why: `SGT_UNREADABLE` of sgt.h."""


class RawVerdict(ctypes.Structure):
    """`sgt_verdict` of sgt.h."""
    _fields_ = [
        ("kind", ctypes.c_uint32),
        ("fault", ctypes.c_uint32),
        ("line", ctypes.c_uint64),
        ("committed", ctypes.c_uint64),
        ("refused", ctypes.c_uint64),
        ("withdrawn", ctypes.c_uint64),
    ]


def load(path=None):
    """The library, with the types of its calls."""
    beside = os.path.join(os.path.dirname(os.path.abspath(__file__)), "../out/libsgt.so")
    path = path or os.environ.get("SGT_LIB") or beside
    library = ctypes.CDLL(os.path.join(path, "libsgt.so") if os.path.isdir(path) else path)
    library.sgt_version.argtypes, library.sgt_version.restype = [], ctypes.c_uint32
    if library.sgt_version() != VERSION:
        raise ImportError(f"libsgt.so is of version {library.sgt_version()}, and not {VERSION}")
    length = ctypes.POINTER(ctypes.c_size_t)
    for name, types in [
        ("sgt_audit", [ctypes.c_char_p, ctypes.c_size_t, ctypes.POINTER(RawVerdict)]),
        *[(f"sgt_{word}_len", [ctypes.c_char_p, ctypes.c_size_t, length]) for word in TEXTS],
        *[(f"sgt_{word}", [ctypes.c_char_p, ctypes.c_size_t, ctypes.c_char_p, ctypes.c_size_t, length]) for word in TEXTS],
    ]:
        call = getattr(library, name)
        call.argtypes, call.restype = types, ctypes.c_uint32
    return library


LIBRARY = load()


def fail(number):
    """What is raised where there is no answer."""
    if number == MEMORY:
        return MemoryError("sgt: memory")
    if number == LONG:
        return TooLong("sgt: too many bytes")
    return RuntimeError(f"sgt: the library answered {number}")


def audit(bundle: bytes) -> Union[Yes, No]:
    """The verdict on the bytes."""
    verdict = RawVerdict()
    number = LIBRARY.sgt_audit(bundle, len(bundle), ctypes.byref(verdict))
    if number == YES:
        return Yes(verdict.committed, verdict.refused, verdict.withdrawn)
    if number == NO:
        return No(verdict.line, verdict.fault)
    raise fail(number)


def text_of(word: str, given: bytes) -> tuple[bool, bytes]:
    """Whether the answer is a yes, and its text."""
    length = ctypes.c_size_t()
    number = getattr(LIBRARY, f"sgt_{word}_len")(given, len(given), ctypes.byref(length))
    if number not in (YES, NO, UNREADABLE):
        raise fail(number)
    text = ctypes.create_string_buffer(length.value + 1)
    number = getattr(LIBRARY, f"sgt_{word}")(given, len(given), text, length, ctypes.byref(length))
    if number == UNREADABLE:
        raise Unreadable(text.raw[:length.value].decode())
    if number not in (YES, NO):
        raise fail(number)
    return number == YES, text.raw[:length.value]


def serial(bundle: bytes) -> tuple[bool, bytes]:
    """Whether the bytes spell a valid bundle, and the lines of its serial run, else the auditor's line."""
    return text_of("serial", bundle)


def certify(logs: bytes) -> tuple[bool, bytes]:
    """Whether a certificate of the logs was made, and the whole bundle, else the reason. The logs are a bundle without its second line."""
    return text_of("certify", logs)


def explain(bundle: bytes) -> tuple[bool, bytes]:
    """Whether the bytes spell a valid bundle, and the auditor's line with what it means."""
    return text_of("explain", bundle)


def check(history: bytes) -> tuple[bool, bytes]:
    """Whether some order explains the history, and how many of its transactions commit, else what shows that none does."""
    return text_of("check", history)


def main():
    bundle = sys.stdin.buffer.read()
    try:
        if sys.argv[1:] and sys.argv[1] in TEXTS:
            is_valid, text = text_of(sys.argv[1], bundle)
            sys.stdout.buffer.write(text)
        else:
            verdict = audit(bundle)
            is_valid = isinstance(verdict, Yes)
            print(verdict)
    except MemoryError as error:
        print(error, file=sys.stderr)
        sys.exit(3)
    except TooLong as error:
        print(error, file=sys.stderr)
        sys.exit(4)
    except Unreadable as error:
        print(error, end="")
        sys.exit(2)
    sys.exit(0 if is_valid else 1)


if __name__ == "__main__":
    main()
