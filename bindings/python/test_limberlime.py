"""Tests of lookups in a small program, and of files that are refused."""
import concurrent.futures
import pathlib
import re
import threading
import unittest

import limberlime
from limberlime import Refusal

CRATES = pathlib.Path(__file__).resolve().parents[2] / "crates"
PATH = CRATES / "pdb_symbolizer" / "data" / "shapes.pdb"
SHAPES = PATH.read_bytes()
FILES = CRATES / "pdb_container_tests" / "data"
MODULES = CRATES / "pdb_report_tests" / "data" / "modules"
STACK = [
    ("shapes::Point::length() const", r"C:\shapes\shapes.h", 10),
    ("Picture::draw(int)", r"C:\shapes\main.cpp", 29),
    ("Framed::draw(int)", r"C:\shapes\main.cpp", 36),
]
REFUSED = {
    "text.pdb": Refusal.NOT_A_PDB_FILE, "program.exe": Refusal.PROGRAM, "portable.pdb": Refusal.PORTABLE_PDB,
    "compressed.pd_": Refusal.COMPRESSED, "version_2.pdb": Refusal.OLD_PDB_FILE,
    "superblock_alone.pdb": Refusal.CUT_SHORT, "streams_too_long.pdb": Refusal.STREAMS_TOO_LONG,
    "objects.pdb": Refusal.OF_OBJECTS,
    "stripped.pdb": Refusal.NO_SECTION_HEADERS, "rearranged_to.pdb": Refusal.REARRANGED,
    "cut_debug.pdb": Refusal.BROKEN_STREAM,
}
HEADER = CRATES.parent / "include" / "limberlime.h"
THREADS, QUESTIONS = 4, 500


class Programs(unittest.TestCase):
    def setUp(self):
        self.program = limberlime.Program.open_pdb(SHAPES)
        self.addCleanup(self.program.close)

    def test_inlined_calls_come_from_inside_to_outside(self):
        frames = self.program.find_frames(0x1136)
        self.assertEqual(list(frames), STACK)
        self.assertTrue(frames.start <= 0x1136 < frames.end)

    def test_a_function_is_one_frame(self):
        self.assertEqual(list(self.program.find_function(0x1136)), [("Framed::draw(int)", None, None)])

    def test_functions_come_by_where_they_start(self):
        named = [function for function in self.program.functions() if function.name is not None]
        self.assertEqual([function.start for function in named],
                         [0x1000, 0x1020, 0x10E0, 0x1110, 0x1150, 0x1190, 0x1260])
        self.assertEqual(named[3], (0x1110, 0x114E, "Framed::draw(int)"))

    def test_nothing_lies_over_other_addresses(self):
        for address in (0, 2**32 - 1):
            self.assertEqual(len(self.program.find_frames(address)), 0)
        with self.assertRaises(ValueError):
            self.program.find_frames(2**32)

    def test_a_closed_program_is_refused(self):
        self.program.close()
        with self.assertRaises(limberlime.Error) as caught:
            self.program.find_frames(0x1136)
        self.assertEqual(caught.exception.refusal, Refusal.CLOSED_HANDLE)
        self.assertEqual(str(caught.exception), "the handle is closed")

    def test_a_program_goes_to_another_thread(self):
        answers = []
        thread = threading.Thread(target=lambda: answers.append(list(self.program.find_frames(0x1136))))
        thread.start()
        thread.join()
        self.assertEqual(answers, [STACK])

    def test_threads_share_a_program(self):
        def ask(number):
            address = (0x1136, 0x10)[number % 2]
            return [list(self.program.find_frames(address)) for _ in range(QUESTIONS)]

        with concurrent.futures.ThreadPoolExecutor(THREADS) as threads:
            answers = list(threads.map(ask, range(THREADS)))
        self.assertEqual(answers, [[(STACK, [])[number % 2]] * QUESTIONS for number in range(THREADS)])

    def test_a_program_is_closed_while_threads_ask(self):
        def ask(_):
            try:
                while True:
                    self.assertEqual(list(self.program.find_frames(0x1136)), STACK)
            except limberlime.Error as error:
                return error.refusal

        with concurrent.futures.ThreadPoolExecutor(THREADS) as threads:
            asked = [threads.submit(ask, number) for number in range(THREADS)]
            self.program.close()
            self.assertEqual({each.result() for each in asked}, {Refusal.CLOSED_HANDLE})


class Files(unittest.TestCase):
    def test_a_file_is_opened_by_its_path(self):
        for path in (PATH, str(PATH)):
            with limberlime.Program.open(path) as program:
                self.assertEqual(list(program.find_frames(0x1136)), STACK)
        with self.assertRaises(FileNotFoundError):
            limberlime.Program.open(FILES / "missing.pdb")
        with self.assertRaises(IsADirectoryError):
            limberlime.Program.open(FILES)

    def test_a_file_at_a_path_answers_as_its_bytes(self):
        with limberlime.Program.open_pdb(SHAPES) as whole, limberlime.Program.open(PATH) as parts:
            for address in range(0x0FF0, 0x1300):
                self.assertEqual(list(parts.find_frames(address)), list(whole.find_frames(address)))
                self.assertEqual(list(parts.find_function(address)), list(whole.find_function(address)))
        with limberlime.Program.open_pdb(SHAPES) as whole, limberlime.Program.open(PATH) as parts:
            self.assertEqual(list(parts.find_frames(0x1136)), STACK)
            self.assertEqual(list(parts.functions()), list(whole.functions()))
            self.assertEqual(list(parts.find_frames(0x1136)), STACK)
            self.assertEqual(parts.report_names([0x1136]), whole.report_names([0x1136]))

    def test_a_path_with_a_null_byte_is_no_other_path(self):
        with self.assertRaises(ValueError):
            limberlime.Program.open(f"{PATH}\0.pdb")

    def test_files_at_paths_are_refused_as_their_bytes(self):
        for name, number in REFUSED.items():
            with self.subTest(name), self.assertRaises(limberlime.Error) as caught:
                limberlime.Program.open(FILES / name)
            self.assertEqual(caught.exception.refusal, number, name)

    def test_refusals_are_those_of_the_header(self):
        numbers = re.findall(r"LIMBERLIME_(\w+) = (-\d+)", HEADER.read_text())
        self.assertEqual([(name, int(number)) for name, number in numbers],
                         [(refusal.name, refusal.value) for refusal in Refusal])

    def test_the_version_is_that_of_the_header(self):
        parts = re.findall(r"LIMBERLIME_VERSION_(?:MAJOR|MINOR|PATCH) (\d+)", HEADER.read_text())
        self.assertEqual(limberlime.version(), tuple(map(int, parts)))

    def test_files_that_are_none_are_refused_as_what_they_are(self):
        for name, number in REFUSED.items():
            with self.subTest(name), self.assertRaises(limberlime.Error) as caught:
                limberlime.Program.open_pdb((FILES / name).read_bytes())
            self.assertEqual(caught.exception.refusal, number, name)

    def test_a_file_says_which_build_it_is_of(self):
        self.assertEqual(limberlime.debug_id(SHAPES), "6B32B94164959A524C4C44205044422E1")
        self.assertEqual(limberlime.machine(SHAPES), 0x8664)

    def test_module_files_are_handed_in_by_their_names(self):
        records = (MODULES / "two.json").read_bytes()
        with self.assertRaises(limberlime.Error) as caught:
            limberlime.Program.open_records(records)
        self.assertEqual(caught.exception.refusal, Refusal.MODULE_FILES)
        with self.assertRaises(FileNotFoundError):
            limberlime.Program.open_records(records, lambda name: (MODULES / "missing").read_bytes())
        with limberlime.Program.open_records(records, lambda name: (MODULES / name).read_bytes()) as program:
            self.assertEqual(program.report_names([0x1010, 0x1050]),
                             "0x1010 - f\ufffd 0x1010..0x1050\n0x1050 - g 0x1050..0x1090\n")


if __name__ == "__main__":
    unittest.main()
