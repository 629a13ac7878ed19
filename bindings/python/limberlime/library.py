"""The shared library, with the types of its calls as limberlime.h has them."""
from __future__ import annotations

import ctypes
import ctypes.util
import os
import pathlib

from .refusals import Error, Refusal

_FIRST_BYTES = 1024


class Sizes(ctypes.Structure):
    _fields_ = [("handle", ctypes.c_size_t), ("function_frames", ctypes.c_size_t), ("frame", ctypes.c_size_t)]


class Buffers(ctypes.Structure):
    _fields_ = [("rows", ctypes.c_void_p), ("frames", ctypes.c_void_p), ("row_capacity", ctypes.c_size_t),
                ("texts", ctypes.c_void_p), ("text_capacity", ctypes.c_size_t)]


class File(ctypes.Structure):
    _fields_ = [("bytes", ctypes.c_void_p), ("length", ctypes.c_size_t), ("is_mapped", ctypes.c_int),
                ("flags", ctypes.c_void_p), ("flag_capacity", ctypes.c_size_t), ("modules", ctypes.c_size_t),
                ("addresses", ctypes.c_void_p), ("address_count", ctypes.c_size_t),
                ("address_capacity", ctypes.c_size_t), ("rounds", ctypes.c_uint)]


class Handle(ctypes.Structure):
    _fields_ = [("records", ctypes.c_void_p), ("context", ctypes.c_void_p), ("sizes", Sizes), ("buffers", Buffers),
                ("file", File)]


class Frame(ctypes.Structure):
    _fields_ = [("function", ctypes.c_void_p), ("function_length", ctypes.c_size_t), ("file", ctypes.c_void_p),
                ("file_length", ctypes.c_size_t), ("line", ctypes.c_uint32)]


class FunctionFrames(ctypes.Structure):
    _fields_ = [("count", ctypes.c_size_t), ("frames", ctypes.POINTER(Frame)), ("start", ctypes.c_uint32),
                ("end", ctypes.c_uint32), ("end_known", ctypes.c_uint32)]


# Its arguments are the caller, the name, and where to put the file's bytes and their number.
ModuleFileCall = ctypes.CFUNCTYPE(ctypes.c_int, ctypes.c_void_p, ctypes.c_char_p, ctypes.POINTER(ctypes.c_void_p),
                                  ctypes.POINTER(ctypes.c_size_t))


def closed() -> Handle:
    """A handle that was never opened."""
    return Handle(sizes=Sizes(*map(ctypes.sizeof, (Handle, FunctionFrames, Frame))))


def _path() -> str:
    """The path of the library: from LIMBERLIME_LIBRARY, next to this file as in a wheel, or among the system's."""
    beside = pathlib.Path(__file__).with_name("liblimberlime.so")
    found = os.environ.get("LIMBERLIME_LIBRARY") or (str(beside) if beside.exists() else "")
    found = found or ctypes.util.find_library("limberlime")
    if not found:
        raise ImportError("liblimberlime.so is not installed: install the package liblimberlime-dev, or set "
                          "LIMBERLIME_LIBRARY to the library's path")
    return found


def _load() -> ctypes.CDLL:
    library = ctypes.CDLL(_path())
    handle, size = ctypes.POINTER(Handle), ctypes.c_size_t
    text = [ctypes.c_char_p, size]
    buffer = [ctypes.c_char_p, size, ctypes.POINTER(size)]
    addresses = [ctypes.POINTER(ctypes.c_uint32), size]
    calls = {
        "open": [*text, handle], "open_records": [*text, ModuleFileCall, ctypes.c_void_p, handle],
        "open_pdb": [*text, handle], "open_path": [ctypes.c_char_p, handle],
        "debug_id": [*text, *buffer], "machine": text, "version": [],
        "frames_of": [handle, *addresses, *buffer], "names_of": [handle, *addresses, *buffer],
        "find_frames": [handle, ctypes.c_uint32, ctypes.POINTER(FunctionFrames)],
        "find_function": [handle, ctypes.c_uint32, ctypes.POINTER(FunctionFrames)],
        "next_function": [handle, ctypes.POINTER(ctypes.c_uint64), ctypes.POINTER(FunctionFrames)],
    }
    for name, arguments in calls.items():
        call = getattr(library, f"limberlime_{name}")
        call.argtypes, call.restype = arguments, ctypes.c_int64
    library.limberlime_close.argtypes, library.limberlime_close.restype = [handle], None
    library.limberlime_refusal_text.argtypes = [ctypes.c_int64]
    library.limberlime_refusal_text.restype = ctypes.c_char_p
    return library


calls = _load()


def answered(answer: int) -> int:
    """The number that a call answered. Raises Error if it is a refusal."""
    if answer < 0:
        raise Error(answer, calls.limberlime_refusal_text(answer).decode())
    return answer


def text_of(call) -> str:
    """The text that a call writes to a buffer. If the buffer is too small, the call says how long the text is."""
    wanted, capacity = ctypes.c_size_t(), _FIRST_BYTES
    answer = int(Refusal.BUFFER_TOO_SMALL)
    while answer == Refusal.BUFFER_TOO_SMALL:
        buffer = ctypes.create_string_buffer(capacity)
        answer = call(buffer, capacity, ctypes.byref(wanted))
        capacity = wanted.value
    return buffer.raw[:answered(answer)].decode()
