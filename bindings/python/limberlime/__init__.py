"""Functions, files, lines and inlined calls at addresses of a Windows program.

    >>> import limberlime
    >>> with limberlime.Program.open("app.pdb") as program:
    ...     for frame in program.find_frames(0x1136):
    ...         print(frame.function, frame.file, frame.line)

Addresses are relative to where the program is loaded. The calls are those of the shared library liblimberlime.so. The
package looks for it at the path in the environment variable LIMBERLIME_LIBRARY, then in its own folder, where a wheel has
it, and then among the libraries of the system.
"""
from __future__ import annotations

import ctypes
import os
import threading
from typing import Callable, Iterator, NamedTuple, Optional, Sequence, Union

from .bags import StackFrame, symbolicate_bag
from .library import FunctionFrames as _FunctionFrames
from .library import Handle as _Handle
from .library import ModuleFileCall as _ModuleFileCall
from .library import answered as _answered
from .library import calls as _calls
from .library import closed as _closed
from .library import text_of as _text_of
from .refusals import Error, Refusal

__all__ = ["Error", "Frame", "Frames", "Function", "Program", "Refusal", "StackFrame", "debug_id", "machine",
           "symbolicate_bag", "version"]


class Frame(NamedTuple):
    """A function whose code contains an address: the one that was called, or one that was inlined there. What is unknown
    is None, and so is a line 0."""

    function: Optional[str]
    file: Optional[str]
    line: Optional[int]


class Function(NamedTuple):
    """A function: its first address, the address after its last one, and its name. What is unknown is None."""

    start: int
    end: Optional[int]
    name: Optional[str]


class Frames(Sequence[Frame]):
    """The frames at an address: the innermost inlined function first, and the function that was called last. There are
    none if no function contains the address. `start` is the first address of the function that was called, and `end` the
    address after its last one, or None if it is unknown."""

    def __init__(self, frames: list[Frame], start: int, end: Optional[int]) -> None:
        self._frames = frames
        self.start = start
        self.end = end

    def __len__(self) -> int:
        return len(self._frames)

    def __getitem__(self, index):
        return self._frames[index]

    def __iter__(self) -> Iterator[Frame]:
        return iter(self._frames)

    def __repr__(self) -> str:
        return f"Frames({self._frames!r}, start={self.start:#x}, end={self.end!r})"


class Program:
    """A program's records, for many lookups.

    It is closed at the end of a `with`, by `close`, or when it is no longer used. Threads may share it, but a lock lets
    only one call at a time reach the library. For lookups at the same time, open the file twice.
    """

    def __init__(self) -> None:
        self._handle: _Handle = _closed()
        self._lock = threading.Lock()

    @classmethod
    def open(cls, path: Union[str, os.PathLike]) -> Program:
        """Opens the PDB file at a path. A lookup reads only what it needs; `functions`, `report_frames` and
        `report_names` read all of the file. Broken parts of it are left out. Until the program is closed, nobody may
        write to the file or truncate it. It may be removed, or replaced by a file that is renamed to its path. Raises
        OSError if the file can't be read, and Error if nothing can be answered over it."""
        program, name = cls(), os.fsencode(path)
        if b"\0" in name:
            raise ValueError("a path with a null byte")
        answer = _calls.limberlime_open_path(name, ctypes.byref(program._handle))
        if answer == Refusal.CANNOT_READ_FILE:
            with open(path, "rb"):
                pass  # the system says here why the file can't be read
        _answered(answer)
        return program

    @classmethod
    def open_pdb(cls, pdb: bytes) -> Program:
        """Reads the bytes of a PDB file. Broken parts of it are left out. Raises Error if nothing can be answered over
        it."""
        return cls._opened(_calls.limberlime_open_pdb, pdb)

    @classmethod
    def open_records(cls, records: bytes, module_file: Optional[Callable[[str], bytes]] = None) -> Program:
        """Reads the bytes of a records file. If it names module files, `module_file` gets the name of each and returns
        its bytes. A name that doesn't begin with a slash is relative to the folder of the records file. An exception of
        `module_file` is raised again."""
        if module_file is None:
            return cls._opened(_calls.limberlime_open, records)
        program, files, records = cls(), _ModuleFiles(module_file), bytes(records)
        answer = _calls.limberlime_open_records(records, len(records), files.call, None,
                                                ctypes.byref(program._handle))
        if files.error is not None:
            raise files.error
        _answered(answer)
        return program

    @classmethod
    def _opened(cls, call, data: bytes) -> Program:
        program = cls()
        data = bytes(data)
        _answered(call(data, len(data), ctypes.byref(program._handle)))
        return program

    def find_frames(self, address: int) -> Frames:
        """The functions at an address, with files and lines, the innermost inlined function first."""
        return self._found(_calls.limberlime_find_frames, _address(address))

    def find_function(self, address: int) -> Frames:
        """The function that contains an address, as a single frame without file and line."""
        return self._found(_calls.limberlime_find_function, _address(address))

    def functions(self) -> Iterator[Function]:
        """The functions of the program, sorted by start address."""
        following = ctypes.c_uint64(0)
        while found := self._found(_calls.limberlime_next_function, ctypes.byref(following)):
            yield Function(found.start, found.end, found[0].function)

    def report_frames(self, addresses: Sequence[int]) -> str:
        """The text that `pdb_report RECORDS frames ADDRESS..` prints for these addresses."""
        return self._report(_calls.limberlime_frames_of, addresses)

    def report_names(self, addresses: Sequence[int]) -> str:
        """The text that `pdb_report RECORDS names ADDRESS..` prints for these addresses."""
        return self._report(_calls.limberlime_names_of, addresses)

    def close(self) -> None:
        """Frees the records. Each later lookup raises Error."""
        with self._lock:
            _calls.limberlime_close(ctypes.byref(self._handle))

    def __enter__(self) -> Program:
        return self

    def __exit__(self, *_) -> None:
        self.close()

    def __del__(self) -> None:
        self.close()

    def _found(self, call, asked) -> Frames:
        found = _FunctionFrames()
        # Frames are valid until the next call with the handle, so they are copied before another thread can make one.
        with self._lock:
            _answered(call(ctypes.byref(self._handle), asked, ctypes.byref(found)))
            frames = [_frame(found.frames[index]) for index in range(found.count)]
        return Frames(frames, found.start, found.end if found.end_known else None)

    def _report(self, call, addresses: Sequence[int]) -> str:
        numbers = (ctypes.c_uint32 * max(len(addresses), 1))(*map(_address, addresses))
        with self._lock:
            return _text_of(lambda *buffer: call(ctypes.byref(self._handle), numbers, len(addresses), *buffer))


class _ModuleFiles:
    """Passes module files to the library by their names, and keeps the bytes of the last one."""

    def __init__(self, read: Callable[[str], bytes]) -> None:
        self._read, self._bytes = read, b""
        self.error: Optional[Exception] = None
        self.call = _ModuleFileCall(self._pass)

    def _pass(self, _caller, name: bytes, data, length) -> int:
        try:
            self._bytes = bytes(self._read(name.decode()))
        except Exception as error:  # it is raised again after the library's call
            self.error = error
            return 1
        data[0] = ctypes.cast(ctypes.c_char_p(self._bytes), ctypes.c_void_p)
        length[0] = len(self._bytes)
        return 0


def debug_id(pdb: bytes) -> str:
    """The debug id of a PDB file, by which programs, symbol servers and crash reports name it."""
    pdb = bytes(pdb)
    return _text_of(lambda *buffer: _calls.limberlime_debug_id(pdb, len(pdb), *buffer))


def machine(pdb: bytes) -> int:
    """The machine type of a PDB file's program, by its number in program headers: 0x8664 for x86_64, 0x14c for x86,
    0xaa64 for Arm64, and 0 if the file doesn't say it."""
    pdb = bytes(pdb)
    return _answered(_calls.limberlime_machine(pdb, len(pdb)))


def version() -> tuple[int, int, int]:
    """The version of the library, as (0, 2, 0)."""
    number = _answered(_calls.limberlime_version())
    return number // 1_000_000, number // 1000 % 1000, number % 1000


def _address(address: int) -> int:
    if not 0 <= address < 2**32:
        raise ValueError(f"{address} is not an address: it must be from 0 to 2**32 - 1")
    return address


def _frame(frame) -> Frame:
    return Frame(_string(frame.function, frame.function_length), _string(frame.file, frame.file_length),
                 frame.line or None)


def _string(at: Optional[int], length: int) -> Optional[str]:
    return None if at is None else ctypes.string_at(at, length).decode()
