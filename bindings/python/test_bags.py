"""Tests of `symbolicate_bag`: stacks over several PDB files, computed by Dask."""
import importlib.util
import pathlib
import shutil
import sys
import tempfile
import unittest
from unittest import mock

import limberlime
from limberlime import Frame, StackFrame, bags

CRATES = pathlib.Path(__file__).resolve().parents[2] / "crates"
SHAPES = CRATES / "pdb_symbolizer" / "data" / "shapes.pdb"
SHAPES_ID = "6B32B94164959A524C4C44205044422E1"
ONE, TWO, OTHER = (digit * 32 + "1" for digit in "A2B")
STACKS = [
    [("one.pdb", ONE, 0x2000), ("two.pdb", TWO, 0x1000)],
    [],
    [("two.pdb", TWO, 0x1000), ("two.pdb", TWO, 0x1000), ("one.pdb", ONE.lower(), 0x1001)],
    [("one.pdb", ONE, 7), ("one.pdb", ONE, 2**32), ("one.pdb", ONE, 2**64 - 1)],
    [("none.pdb", ONE, 0x1000), ("one.pdb", TWO, 0x1000), ("cut.pdb", ONE, 0x1000)],
    [("../one.pdb", ONE, 0x1000), ("", ONE, 0x1000), ("one.pdb", "../" + ONE, 0x1000), ("other.pdb", ONE, 0x1000)],
    [("one.pdb", ONE, 0x2000)],
]
NOWHERE = (None, None, None, ())


class StandIn:
    """Replaces limberlime.Program. A file's text is a name and a debug id. Addresses from 0x1000 have one frame, and
    those from 0x2000 two."""

    opened, asked = [], []

    def __init__(self, name):
        self.name = name

    @classmethod
    def open_pdb(cls, data):
        name = data.decode().split()[0]
        if name == "cut.pdb":
            raise limberlime.Error(limberlime.Refusal.CUT_SHORT, "cut short")
        cls.opened.append(name)
        return cls(name)

    def find_frames(self, address):
        self.asked.append((self.name, address))
        outer = Frame(f"{self.name}+{address:x}", None, None)
        inner = Frame("inlined", f"{self.name}.h", address)
        return [] if address < 0x1000 else [outer] if address < 0x2000 else [inner, outer]


def answered(frame):
    """Returns the expected frame, as StandIn answers it."""
    name, debug_id, offset = frame
    found = (name, debug_id.upper()) in (("one.pdb", ONE), ("two.pdb", TWO))
    if not found or not 0x1000 <= offset < 2**32:
        return StackFrame(*frame, found, *NOWHERE)
    inlined = (Frame("inlined", f"{name}.h", offset),) if offset >= 0x2000 else ()
    return StackFrame(*frame, True, f"{name}+{offset:x}", None, None, inlined)


def put(store, name, debug_id, data):
    """Writes a file into a symbol store."""
    folder = pathlib.Path(store, name, debug_id)
    folder.mkdir(parents=True)
    (folder / name).write_bytes(data)


class WithoutDask(unittest.TestCase):
    def test_an_error_says_what_to_install(self):
        with mock.patch.dict(sys.modules, {"dask": None}), self.assertRaises(ImportError) as caught:
            limberlime.symbolicate_bag(None, "store")
        self.assertIn("python3-distributed", str(caught.exception))


@unittest.skipUnless(importlib.util.find_spec("dask"), "Dask is not installed")
class Bags(unittest.TestCase):
    def setUp(self):
        store = tempfile.TemporaryDirectory()
        self.addCleanup(store.cleanup)
        self.store = store.name
        for name, debug_id in (("one.pdb", ONE), ("two.pdb", TWO), ("cut.pdb", ONE)):
            put(self.store, name, debug_id, f"{name} {debug_id}".encode())
        put(self.store, "other.pdb", ONE, f"other.pdb {OTHER}".encode())
        StandIn.opened, StandIn.asked = [], []
        for patch in (mock.patch.object(limberlime, "Program", StandIn),
                      mock.patch.object(limberlime, "debug_id", lambda data: data.decode().split()[1]),
                      mock.patch.object(bags, "_programs", bags._Programs())):
            patch.start()
            self.addCleanup(patch.stop)

    def compute(self, stacks, partitions, **options):
        import dask.bag
        bag = dask.bag.from_sequence(stacks, npartitions=partitions).map(lambda stack: stack)
        answers = limberlime.symbolicate_bag(bag, self.store, **options)
        self.assertEqual(answers.npartitions, bag.npartitions)
        return answers.compute(scheduler="synchronous")

    def test_stacks_and_frames_keep_their_order(self):
        wanted = [[answered(frame) for frame in stack] for stack in STACKS]
        for partitions in (1, 2, 3, 7):
            for options in ({}, {"groups": 1}, {"groups": 5, "tasks_per_file": 3}):
                with self.subTest(partitions, **options):
                    self.assertEqual(self.compute(STACKS, partitions, **options), wanted)

    def test_a_file_is_opened_once(self):
        for _ in range(2):
            self.compute(STACKS, 4)
        self.assertEqual(sorted(StandIn.opened), ["one.pdb", "two.pdb"])

    def test_an_offset_is_looked_up_once(self):
        self.compute(STACKS * 10, 4)
        self.assertEqual(sorted(StandIn.asked),
                         [("one.pdb", 7), ("one.pdb", 0x1001), ("one.pdb", 0x2000), ("two.pdb", 0x1000)])

    def test_a_file_that_comes_later_is_found(self):
        stacks = [[("late.pdb", ONE, 0x1000)]]
        self.assertFalse(self.compute(stacks, 1)[0][0].found)
        put(self.store, "late.pdb", ONE, f"late.pdb {ONE}".encode())
        self.assertEqual(self.compute(stacks, 1)[0][0].function, "late.pdb+1000")

    def test_few_files_are_kept(self):
        one, two = [[("one.pdb", ONE, 0x1000)]], [[("two.pdb", TWO, 0x1000)]]
        with mock.patch.object(bags, "MOST_PROGRAMS", 1):
            for stacks in (one, one, two, two, one):
                self.compute(stacks, 1)
        self.assertEqual(StandIn.opened, ["one.pdb", "two.pdb", "one.pdb"])


@unittest.skipUnless(importlib.util.find_spec("dask"), "Dask is not installed")
class BagsOfPrograms(unittest.TestCase):
    def test_a_stack_has_functions_files_lines_and_inlined_calls(self):
        import dask.bag
        with tempfile.TemporaryDirectory() as store:
            put(store, SHAPES.name, SHAPES_ID, b"")
            shutil.copy(SHAPES, pathlib.Path(store, SHAPES.name, SHAPES_ID))
            bag = dask.bag.from_sequence([[(SHAPES.name, SHAPES_ID, 0x1136), (SHAPES.name, SHAPES_ID, 0x10)]])
            stacks = limberlime.symbolicate_bag(bag, store).compute(scheduler="threads")
        header, source = r"C:\shapes\shapes.h", r"C:\shapes\main.cpp"
        inlined = (Frame("shapes::Point::length() const", header, 10), Frame("Picture::draw(int)", source, 29))
        wanted = StackFrame(SHAPES.name, SHAPES_ID, 0x1136, True, "Framed::draw(int)", source, 36, inlined)
        self.assertEqual(stacks, [[wanted, StackFrame(SHAPES.name, SHAPES_ID, 0x10, True, *NOWHERE)]])


if __name__ == "__main__":
    unittest.main()
