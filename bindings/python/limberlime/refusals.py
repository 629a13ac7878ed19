"""Why a call has no answer."""
from __future__ import annotations

import enum


class Refusal(enum.IntEnum):
    """Why a call has no answer. The numbers are those of `enum limberlime_refusal` in limberlime.h."""

    NULL_POINTER = -1
    NO_ADDRESSES = -2
    NOT_JSON = -3
    NO_RECORDS = -4
    MODULE_FILES = -5
    RECORDS_REFUSED = -6
    ADDRESS_REFUSED = -7
    OUT_OF_MEMORY = -8
    BUFFER_TOO_SMALL = -9
    CLOSED_HANDLE = -10
    NOT_A_PDB_FILE = -11
    PROGRAM = -12
    PORTABLE_PDB = -13
    COMPRESSED = -14
    OLD_PDB_FILE = -15
    CUT_SHORT = -16
    STREAMS_TOO_LONG = -17
    OF_OBJECTS = -18
    OLD_TYPES = -19
    NO_SECTION_HEADERS = -20
    REARRANGED = -21
    BROKEN_STREAM = -22
    NO_DEBUG_ID = -23
    CANNOT_READ_MODULE = -24
    CANNOT_READ_FILE = -25


class Error(Exception):
    """A call has no answer. `refusal` says why. It is a Refusal, or a plain number if a later library has one that this
    module doesn't know."""

    def __init__(self, number: int, text: str) -> None:
        super().__init__(text or f"unknown refusal {number}")
        try:
            self.refusal: Refusal | int = Refusal(number)
        except ValueError:
            self.refusal = number
