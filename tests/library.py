"""Tries the library from Python: library.py LIBRARY LINES. Writes for each line of the file LINES its answer, and ends with 1 where
a room, a result or a check isn't as it should be."""
import ctypes
import sys

DONE, MIXED, BAD_TEXT, NO_ROOM = 0, 1, 7, 9


class Evaluator(ctypes.Structure):
    _fields_ = [("kept", ctypes.c_void_p)]


library = ctypes.CDLL(sys.argv[1])
library.calendrica_open.argtypes = [ctypes.POINTER(Evaluator)]
library.calendrica_close.argtypes = [ctypes.POINTER(Evaluator)]
library.calendrica_close.restype = None
SIZE = ctypes.c_size_t
for name in ("answer", "result", "check"):
    getattr(library, f"calendrica_{name}").argtypes = [
        ctypes.POINTER(Evaluator), ctypes.c_char_p, SIZE, ctypes.c_char_p, SIZE, ctypes.POINTER(SIZE)]


def ask(evaluator, name, asked, size=65536):
    """The status of a call, and its text, or of too small a room the length that is needed."""
    room, length = ctypes.create_string_buffer(b"\7" * (size + 1), size + 1), SIZE()
    call = getattr(library, f"calendrica_{name}")
    status = call(ctypes.byref(evaluator), asked, len(asked), room, size, ctypes.byref(length))
    if status == NO_ROOM:
        assert room.raw == b"\7" * (size + 1), "a room that is too small was written to"
        return status, length.value
    assert room.raw[length.value:] == b"\7" * (size + 1 - length.value), "bytes behind the text were written to"
    return status, room.raw[:length.value]


evaluator, other = Evaluator(), Evaluator()
assert library.calendrica_open(ctypes.byref(evaluator)) == DONE
assert library.calendrica_open(ctypes.byref(other)) == DONE
with open(sys.argv[2], "rb") as file:
    for line in file.read().split(b"\n")[:-1]:
        status, text = ask(evaluator, "answer", line)
        assert status == (DONE if b" facts" in text and b" refused " not in text else MIXED), line
        sys.stdout.buffer.write(text)
        assert ask(other, "answer", line, len(text) - 1) == (NO_ROOM, len(text)), line
assert ask(evaluator, "result", b"gregorian 2027-02-06 chinese") == (DONE, b"78-44-1-0-1")
assert ask(evaluator, "result", b"") == (MIXED, b"refused 1")
assert ask(evaluator, "answer", b"x" * 4194304) == (MIXED, b"line 1 refused 1\n")
assert ask(evaluator, "check", b"") == (BAD_TEXT, b"bad 1 1\n")
library.calendrica_close(ctypes.byref(evaluator))
library.calendrica_close(ctypes.byref(other))
assert evaluator.kept is None and other.kept is None
