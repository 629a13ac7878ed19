"""Stacks over many PDB files, answered by Dask.

A stack is a list of frames, and a frame is the name of a PDB file, its debug id, and an offset from where its program
is loaded. PDB files are in a folder as symbol servers have them: STORE/app.pdb/DEBUGID/app.pdb.

First each partition of the bag lists its different frames, by PDB file. Then one task for each PDB file opens it and
looks up the offsets of all partitions. Last, each partition puts the answers into its stacks.
"""
from __future__ import annotations

import collections
import os
import pathlib
import re
import threading
import zlib
from typing import TYPE_CHECKING, Dict, Iterable, List, NamedTuple, Optional, Tuple

import limberlime

if TYPE_CHECKING:
    import dask.bag

MOST_GROUPS = 64
# Each partition sends something to each group, so there are fewer groups than partitions.
PARTS_PER_GROUP = 3
MOST_PROGRAMS = 64
PAGE_BITS = 12
NEEDED = ("limberlime.symbolicate_bag needs Dask: install Debian's package python3-distributed, or run "
          "`pip install dask distributed`")
DEBUG_ID = re.compile("[0-9a-fA-F]{33,40}")

# A PDB file: its name and its debug id, as stacks have them. And the offsets to look up, by PDB file.
File = Tuple[str, str]
Asked = Dict[File, List[int]]
# What is known at an offset: function, file, line, and what is inlined there.
Place = Tuple[Optional[str], Optional[str], Optional[int], Tuple["limberlime.Frame", ...]]
NOWHERE: Place = (None, None, None, ())


class StackFrame(NamedTuple):
    """What is known of a frame of a stack.

    `pdb`, `debug_id` and `offset` are those of the frame. `found` says whether the store has a PDB file with this debug
    id that can be read. `function`, `file` and `line` belong to the function that contains the offset, and `inlined` has
    the functions that are inlined there, the innermost first. What is unknown is None."""

    pdb: str
    debug_id: str
    offset: int
    found: bool
    function: Optional[str]
    file: Optional[str]
    line: Optional[int]
    inlined: Tuple[limberlime.Frame, ...]


class FileAnswers(NamedTuple):
    """What is found in a PDB file: whether it can be read, the different places, and which of them each offset has."""

    found: bool
    places: List[Place]
    numbers: Dict[int, int]


Answers = Dict[File, FileAnswers]


def symbolicate_bag(bag: dask.bag.Bag, store: os.PathLike, *, groups: Optional[int] = None,
                    tasks_per_file: int = 1) -> dask.bag.Bag:
    """Looks up the frames of all stacks in a bag.

    An element of `bag` is a stack: a list of frames (name of the PDB file, debug id, offset). An element of the result
    is a list of StackFrame. The result has as many partitions as `bag`, and the same stacks in the same order, each
    with its frames in the same order.

    Workers read PDB files from the folder `store`. At most `tasks_per_file` tasks look up the offsets of one file.
    `groups` is the number of tasks that look up offsets; each has several files. If it is None, there are a third as
    many as `bag` has partitions, but at most 64. A worker keeps the last 64 files that it opened.

    Nothing is computed until the result is. Then all stacks are in the workers' memory until all are answered.
    """
    try:
        import dask
        import dask.bag
    except ImportError as error:
        raise ImportError(NEEDED) from error
    parts = [dask.delayed(list)(part) for part in bag.to_delayed()]
    groups = groups or min(max(len(parts) // PARTS_PER_GROUP, 1), MOST_GROUPS)
    asked = [dask.delayed(_asked, nout=groups)(part, groups, tasks_per_file) for part in parts]
    answer = dask.delayed(_answered, nout=len(parts))
    answers = [answer(os.fspath(store), [one[group] for one in asked]) for group in range(groups)]
    join = dask.delayed(_joined)
    stacks = [join(part, [one[place] for one in answers]) for place, part in enumerate(parts)]
    return dask.bag.from_delayed(stacks)


def _asked(stacks: Iterable, groups: int, tasks_per_file: int) -> List[Asked]:
    """The offsets of stacks by group and PDB file, each once and in ascending order."""
    offsets = collections.defaultdict(set)
    for stack in stacks:
        for pdb, debug_id, offset in stack:
            offsets[pdb, debug_id].add(offset)
    asked: List[Asked] = [collections.defaultdict(list) for _ in range(groups)]
    for file, some in offsets.items():
        first = _number(file)
        for offset in sorted(some):
            # Offsets of one page belong to one task, because what was read for one often answers the next.
            asked[(first + (offset >> PAGE_BITS) % tasks_per_file) % groups][file].append(offset)
    return asked


def _number(file: File) -> int:
    """A number for a PDB file, the same in all processes."""
    return zlib.crc32(f"{file[0]}/{file[1].upper()}".encode("utf-8", "replace"))


def _answered(store: str, asked: List[Asked]) -> List[Answers]:
    """The answers of a group, for each partition."""
    offsets = collections.defaultdict(set)
    for one in asked:
        for file, some in one.items():
            offsets[file].update(some)
    known = {file: _file_answers(store, file, sorted(some)) for file, some in offsets.items()}
    return [{file: _part(known[file], some) for file, some in one.items()} for one in asked]


def _file_answers(store: str, file: File, offsets: List[int]) -> FileAnswers:
    """The answers over a PDB file."""
    program = _programs.get(store, file)
    places: Dict[Place, int] = {}
    numbers = {offset: places.setdefault(_place(program, offset), len(places)) for offset in offsets}
    return FileAnswers(program is not None, list(places), numbers)


def _place(program: Optional[limberlime.Program], offset: int) -> Place:
    """What is known at an offset. An offset of more than 32 bits is in no function."""
    frames = program.find_frames(offset) if program and 0 <= offset < 2**32 else ()
    if not frames:
        return NOWHERE
    *inlined, outer = frames
    return (*outer, tuple(inlined))


def _part(known: FileAnswers, offsets: List[int]) -> FileAnswers:
    """The answers at some of the offsets, without other places, so that little is sent between workers."""
    numbers: Dict[int, int] = {}
    part = {offset: numbers.setdefault(known.numbers[offset], len(numbers)) for offset in offsets}
    return FileAnswers(known.found, [known.places[number] for number in numbers], part)


def _joined(stacks: List, answers: List[Answers]) -> List[List[StackFrame]]:
    """The stacks of a partition with the answers of all groups."""
    known: Dict[File, Dict[int, StackFrame]] = collections.defaultdict(dict)
    for one in answers:
        for file, (found, places, numbers) in one.items():
            frames = known[file]
            for offset, number in numbers.items():
                frames[offset] = StackFrame(*file, offset, found, *places[number])
    return [[known[pdb, debug_id][offset] for pdb, debug_id, offset in stack] for stack in stacks]


def _path(store: str, file: File) -> Optional[pathlib.Path]:
    """The path of a PDB file in a store. A name that would lead out of the store has none."""
    name, debug_id = file
    if name in ("", ".", "..") or any(mark in name for mark in "/\\:\0") or not DEBUG_ID.fullmatch(debug_id):
        return None
    return pathlib.Path(store, name, debug_id.upper(), name)


def _opened(store: str, file: File) -> Optional[limberlime.Program]:
    """Opens a PDB file of a store. Returns None if it is missing, can't be read, or belongs to another build."""
    path = _path(store, file)
    try:
        data = path.read_bytes() if path else b""
        if not data or limberlime.debug_id(data) != file[1].upper():
            return None
        return limberlime.Program.open_pdb(data)
    except OSError:
        return None
    except limberlime.Error as error:
        if error.refusal == limberlime.Refusal.OUT_OF_MEMORY:
            raise
        return None


class _Slot:
    """A PDB file that the first thread that needs it opens. If that fails, the next one tries again."""

    def __init__(self) -> None:
        self.lock, self.opened, self.program = threading.Lock(), False, None


class _Programs:
    """The PDB files that this process opened last."""

    def __init__(self) -> None:
        self._lock, self._slots = threading.Lock(), collections.OrderedDict()

    def get(self, store: str, file: File) -> Optional[limberlime.Program]:
        """A PDB file. It is opened if it isn't kept."""
        key = store, file[0], file[1].upper()
        with self._lock:
            slot = self._slots.setdefault(key, _Slot())
            self._slots.move_to_end(key)
            while len(self._slots) > MOST_PROGRAMS:
                self._slots.popitem(last=False)
        with slot.lock:
            if not slot.opened:
                slot.program = _opened(store, file)
                slot.opened = slot.program is not None
            return slot.program


_programs = _Programs()
