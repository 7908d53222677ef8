"""A proved reader of GPMF, the metadata of action cameras, for CPython 3.9 and later on x86-64.

Which readings of a damaged take had a wet microphone:

    >>> import gpmf
    >>> for packet in gpmf.open_take("samples/damaged.raw"):  # a path, or a file that is open for reading bytes
    ...     reading = packet.front()  # all that can be read of it; packet.reading is None where it is not whole
    ...     row = reading.lookup("MWET", "MWET")  # the last row of a group and a key
    ...     print(packet.number, packet.refusal or "read", row and reading.value(row))
    1 read [[0, 0, 95], [0, 0, 95], [0, 0, 96], [0, 0, 99]]
    2 refused with 2 at 984: an item's payload runs past the end of its level (for a value read: of the payload given) [[0, 0, 59], [0, 0, 64], [1, 0, 59], [1, 0, 64]]
    3 refused with 3 at 752: the search for a container's or a payload's last item meets 1 to 7 bytes, too few for a header None
    4 read [[1, 1, 73], [1, 0, 68], [0, 0, 66], [0, 0, 70]]
    5 refused with 2 at 892: an item's payload runs past the end of its level (for a value read: of the payload given) [[0, 0, 94], [0, 0, 91], [0, 0, 96], [0, 0, 90]]

What reads is the library, in which each function is proved to answer what its definition says; this module hands over bytes and numbers. The library's folder or
file is named by GPMF_LIB in the environment; else it lies beside this module, or in target/lib of the repository, where ./gpmf lib builds it.

A call that is refused raises Refusal, where the library has nothing it is None, and numbers that no call of the library takes raise ValueError, TypeError or
OverflowError. Bytes are taken where they lie, in bytes, a bytearray or a memoryview. A key is a text: its four letters, or, where one of them cannot be
seen, x and eight hex digits. A group is a key, or None for the caller's own. A place is counted in bytes from the start of the payload or file.

The module is for CPython as it usually comes, with its global lock: the library, as a PyDLL, is called under that lock, so that no other thread changes memory while it
is lent. A build without the lock does not give that, and nor do other interpreters."""
from __future__ import annotations

import array
import collections
import ctypes
import dataclasses
import datetime
import enum
import fractions
import operator
import os
import pathlib
import struct
from ctypes import c_bool, c_double, c_float, c_int16, c_int32, c_int64, c_size_t, c_uint8, c_uint16, c_uint32, c_uint64, c_void_p
from types import TracebackType
from typing import Any, BinaryIO, Deque, Dict, Iterable, Iterator, List, NamedTuple, Optional, Sequence, Tuple, Type, Union, overload

Bytes = Union[bytes, bytearray, memoryview]
Numbers = Union["array.array[int]", memoryview]  # of 32 bits each, without a sign
LongNumbers = Union["array.array[int]", memoryview]  # of 64
Number = Union[int, float]
Value = Union[None, int, float, str, datetime.datetime, List[Number], List[str], List[List[Number]]]

# ---- limits and fixed numbers, as in gpmf.h

MOST_BYTES = 1048576  # of a payload
MOST_ROWS = 4096  # of a reading
ROW_WIDTH = 8  # numbers of a row
NO_TYPE = 4294967295  # the place of a TYPE where none is in force
FULL = 2**64 - 1  # the place behind text that did not fit its buffer

REFUSED, IS, NOTHING, MORE = range(4)  # the kinds of an answer
GROUP_CALLER, GROUP_BY_KEY = range(2)  # the kinds of a group

MEANINGS: Dict[int, str] = {
    1: "the payload is over the limit of 1,048,576 bytes",
    2: "an item's payload runs past the end of its level (for a value read: of the payload given)",
    3: "the search for a container's or a payload's last item meets 1 to 7 bytes, too few for a header",
    4: "a container with a payload stands at depth 16; the outermost items have depth 0",
    5: "a row, written or claimed, or an element does not fit the room; for rows that is the lent numbers / 8, rounded down, and at most 4,096",
    6: "an item's payload has too few bytes for the shape of its value",
    7: "a text of the value, or its date, is not readable",
    8: "a TYPE text expands to more than 256 characters",
    9: "the strings of axes are not three ASCII characters each",
    10: "a matrix is not nine numbers, or has a row with none above 0.5 or below -0.5",
    11: "a duration list has more than 2,048 packets, a stamp of 2^42 or more, more than 65,535 readings in a packet, or a duration that is not finite",
    12: "at the place asked are fewer than 8 bytes, or an item of length 0; or, for a `?` item, no whole TYPE of one text with a payload stands at the place named",
    13: "the row or the column asked lies outside the value",
}


class Refusal(Exception):
    """A refusal: its number, its place, and what the number means."""

    def __init__(self, number: int, place: int) -> None:
        super().__init__(number, place)
        self.number = number
        self.place = place

    @property
    def meaning(self) -> str:
        """What the number means, in the words of README.md."""
        return MEANINGS.get(self.number, "a number that this module does not know")

    def __str__(self) -> str:
        return f"refused with {self.number} at {self.place}: {self.meaning}"


# ---- the records of gpmf.h, field by field


class gpmf_klv(ctypes.Structure):
    _fields_ = [("key", c_uint32), ("data_type", c_uint8), ("size", c_uint8), ("repeat", c_uint16)]


class gpmf_group_id(ctypes.Structure):
    _fields_ = [("number", c_uint32), ("key", c_uint32)]


class gpmf_row(ctypes.Structure):
    _fields_ = [
        ("place", c_uint32), ("group_kind", c_uint32), ("group_key", c_uint32), ("tag", c_uint32),
        ("key", c_uint32), ("shape", c_uint32), ("type_place", c_uint32), ("depth", c_uint32),
    ]


class gpmf_cursor(ctypes.Structure):
    _fields_ = [("at", c_size_t)]


class gpmf_exact(ctypes.Structure):
    _fields_ = [("numerator", c_int64), ("denominator", c_uint64)]


class gpmf_number(ctypes.Structure):
    _fields_ = [("form", c_uint32), ("single_value", c_float), ("signed_value", c_int64), ("unsigned_value", c_uint64), ("double_value", c_double)]


class gpmf_axes(ctypes.Structure):
    _fields_ = [("first", c_uint8), ("second", c_uint8), ("third", c_uint8)]


class gpmf_matrix(ctypes.Structure):
    _fields_ = [("entries", c_float * 9)]


class gpmf_quaternion(ctypes.Structure):
    _fields_ = [("w", c_double), ("x", c_double), ("y", c_double), ("z", c_double)]


class gpmf_packet(ctypes.Structure):
    _fields_ = [("start", c_size_t), ("end", c_size_t)]


class gpmf_packets(ctypes.Structure):
    _fields_ = [("at", c_size_t)]


class gpmf_taken(ctypes.Structure):
    _fields_ = [("end", c_size_t), ("accepted", c_bool)]


_ANSWER: List[Tuple[str, Any]] = [("kind", c_uint32), ("number", c_uint32), ("place", c_size_t)]  # every answer begins so


class gpmf_whole_answer(ctypes.Structure):
    _fields_ = [*_ANSWER, ("value", c_uint64)]


class gpmf_real_answer(ctypes.Structure):
    _fields_ = [*_ANSWER, ("value", c_double)]


class gpmf_item_answer(ctypes.Structure):
    _fields_ = [*_ANSWER, ("klv", gpmf_klv)]


class gpmf_element_answer(ctypes.Structure):
    _fields_ = [*_ANSWER, ("element", gpmf_number)]


class gpmf_shape_answer(ctypes.Structure):
    _fields_ = [*_ANSWER, ("value_kind", c_uint32), ("rows", c_size_t), ("columns", c_size_t)]


class gpmf_row_answer(ctypes.Structure):
    _fields_ = [*_ANSWER, ("row", gpmf_row)]


class gpmf_metadata_answer(ctypes.Structure):
    _fields_ = [*_ANSWER, ("rows", c_size_t), ("headers", c_size_t)]


class gpmf_axes_answer(ctypes.Structure):
    _fields_ = [*_ANSWER, ("axes", gpmf_axes)]


class gpmf_orientations_answer(ctypes.Structure):
    _fields_ = [*_ANSWER, ("orin", gpmf_axes), ("orio", gpmf_axes)]


class gpmf_quaternion_answer(ctypes.Structure):
    _fields_ = [*_ANSWER, ("quaternion", gpmf_quaternion)]


class gpmf_part_answer(ctypes.Structure):
    _fields_ = [*_ANSWER, ("start", c_size_t), ("length", c_size_t)]


class gpmf_packet_answer(ctypes.Structure):
    _fields_ = [*_ANSWER, ("packet", gpmf_packet), ("rest", gpmf_packets)]


class gpmf_packet_metadata_answer(ctypes.Structure):
    _fields_ = [*_ANSWER, ("packet", gpmf_packet), ("metadata", gpmf_metadata_answer), ("rest", gpmf_packets)]


# ---- the functions of gpmf.h: the answer's type, then those of the arguments; memory is a pointer and a length

_MEMORY = (c_void_p, c_size_t)
_OUT = (*_MEMORY, c_size_t)  # and a place in it
_GROUP = (*_MEMORY, *_MEMORY, c_size_t, c_uint32, c_uint32)  # a payload, rows, their count, and a group
_CALLS: Dict[str, Tuple[Any, ...]] = {
    "gpmf_parse_metadata": (gpmf_metadata_answer, *_MEMORY, c_bool, *_MEMORY),
    "gpmf_room": (c_size_t, c_size_t),
    "gpmf_row_at": (gpmf_row_answer, *_MEMORY, c_size_t),
    "gpmf_put_row": (c_bool, *_MEMORY, c_size_t, gpmf_row),
    "gpmf_lookup": (gpmf_whole_answer, *_MEMORY, c_size_t, c_uint32, c_uint32, c_uint32, c_uint32),
    "gpmf_last_item": (gpmf_item_answer, *_MEMORY, c_size_t),
    "gpmf_get_last_klv": (gpmf_item_answer, *_MEMORY),
    "gpmf_element": (gpmf_element_answer, *_MEMORY, c_size_t, c_size_t, c_size_t, c_size_t),
    "gpmf_shape_at": (gpmf_shape_answer, *_MEMORY, c_size_t, c_size_t),
    "gpmf_columns_at": (gpmf_whole_answer, *_MEMORY, c_size_t, c_size_t, c_size_t),
    "gpmf_elements_at": (gpmf_whole_answer, *_MEMORY, c_size_t, c_size_t, *_MEMORY),
    "gpmf_klv_at": (gpmf_item_answer, *_MEMORY, c_size_t, c_size_t),
    "gpmf_bytes_at": (gpmf_part_answer, *_MEMORY, c_size_t, c_size_t),
    "gpmf_text_at": (gpmf_part_answer, *_MEMORY, c_size_t, c_size_t, c_size_t),
    "gpmf_cursor_new": (gpmf_cursor, c_size_t),
    "gpmf_parse_header": (gpmf_item_answer, gpmf_cursor, *_MEMORY),
    "gpmf_data_len": (c_size_t, gpmf_klv),
    "gpmf_aligned_data_len": (c_size_t, gpmf_klv),
    "gpmf_is_one_text": (c_bool, gpmf_klv),
    "gpmf_is_type_text": (c_bool, gpmf_klv),
    "gpmf_tag_id": (c_uint32, c_uint32),
    "gpmf_group_from_key": (gpmf_group_id, c_uint32),
    "gpmf_big_endian": (c_uint64, *_MEMORY),
    "gpmf_q15_16": (c_float, c_int16, c_uint16),
    "gpmf_q31_32": (c_double, c_int32, c_uint32),
    "gpmf_q31_32_exact": (gpmf_exact, c_int32, c_uint32),
    "gpmf_width": (c_size_t, c_uint8),
    "gpmf_element_at": (gpmf_number, *_MEMORY, c_size_t, c_uint8),
    "gpmf_exact_at": (gpmf_exact, *_MEMORY, c_size_t),
    "gpmf_single_bits": (c_uint32, c_float),
    "gpmf_double_bits": (c_uint64, c_double),
    "gpmf_resolve_custom_type": (gpmf_whole_answer, *_MEMORY, c_void_p),
    "gpmf_latin1_len": (c_size_t, *_MEMORY),
    "gpmf_utf8_len": (c_size_t, *_MEMORY),
    "gpmf_is_utf8": (c_bool, *_MEMORY),
    "gpmf_are_utf8": (c_bool, *_MEMORY, c_size_t),
    "gpmf_parse_utcdate": (gpmf_whole_answer, *_MEMORY),
    "gpmf_tagged_item": (gpmf_item_answer, *_GROUP, c_uint32, c_uint32),
    "gpmf_is_one_number": (c_bool, gpmf_klv, c_uint8),
    "gpmf_stamp_us": (gpmf_whole_answer, *_GROUP),
    "gpmf_scaled_quaternion": (gpmf_quaternion_answer, *_GROUP, c_size_t),
    "gpmf_scaled": (gpmf_quaternion, c_int16, c_int16, c_int16, c_int16, c_double),
    "gpmf_negated": (c_int16, c_int16),
    "gpmf_orientation_of_group": (gpmf_axes_answer, *_GROUP),
    "gpmf_get_avg_sample_duration": (gpmf_real_answer, *_MEMORY, *_MEMORY, *_MEMORY, *_MEMORY, *_MEMORY),
    "gpmf_orientations_of": (gpmf_orientations_answer, *_MEMORY, *_MEMORY),
    "gpmf_orientations_to_matrix": (gpmf_matrix, gpmf_axes, gpmf_axes),
    "gpmf_matrix_to_orientation": (gpmf_axes_answer, gpmf_matrix),
    "gpmf_mtrx_to_orientation": (gpmf_axes_answer, *_MEMORY),
    "gpmf_find_devc": (gpmf_whole_answer, *_MEMORY, c_size_t),
    "gpmf_packets_new": (gpmf_packets, c_size_t),
    "gpmf_packets_next": (gpmf_packet_answer, gpmf_packets, *_MEMORY),
    "gpmf_packets_next_in": (gpmf_packet_answer, gpmf_packets, *_MEMORY, c_bool),
    "gpmf_next_metadata": (gpmf_packet_metadata_answer, gpmf_packets, *_MEMORY, c_bool, *_MEMORY),
    "gpmf_next_metadata_in": (gpmf_packet_metadata_answer, gpmf_packets, *_MEMORY, c_bool, c_bool, *_MEMORY),
    "gpmf_list": (c_size_t, *_MEMORY, *_MEMORY, *_OUT),
    "gpmf_put_answer": (c_size_t, *_OUT, gpmf_metadata_answer),
    "gpmf_put_rows": (c_size_t, *_OUT, *_MEMORY, c_size_t),
    "gpmf_put_packet": (gpmf_taken, *_MEMORY, c_uint64, c_uint64, c_bool, *_MEMORY, *_OUT),
    "gpmf_put_long_packet": (c_size_t, c_uint64, c_uint64, c_uint64, c_bool, *_OUT),
    "gpmf_put_totals": (c_size_t, *_OUT, c_uint64, c_uint64, c_uint64),
    "gpmf_put": (c_size_t, *_OUT, c_uint8),
    "gpmf_put_bytes": (c_size_t, *_OUT, *_MEMORY),
    "gpmf_put_decimal": (c_size_t, *_OUT, c_uint64),
    "gpmf_put_hex": (c_size_t, *_OUT, c_uint64, c_size_t),
    "gpmf_put_signed": (c_size_t, *_OUT, c_int64),
    "gpmf_pieces": (c_size_t, *_MEMORY, c_uint8),
    "gpmf_decimal_number": (gpmf_whole_answer, *_MEMORY),
    "gpmf_hex_number": (gpmf_whole_answer, *_MEMORY),
    "gpmf_unhex": (gpmf_whole_answer, *_MEMORY, *_MEMORY),
}


# ---- the library


def _library_file() -> pathlib.Path:
    """Where the library is, by the rule above."""
    here = pathlib.Path(__file__).resolve().parent
    named = os.environ.get("GPMF_LIB")
    places = [pathlib.Path(named)] if named else [here, here.parent.parent / "target" / "lib"]
    files = [place if place.is_file() else place / "libgpmf.so" for place in places]
    for file in files:
        if file.is_file():
            return file.resolve()
    raise ImportError(f"there is no libgpmf.so: run ./gpmf lib in the repository (looked for: {', '.join(map(str, files))})")


def _library() -> ctypes.PyDLL:
    """The library with its declarations."""
    file = _library_file()
    try:
        library = ctypes.PyDLL(str(file))
        for name, (answer, *arguments) in _CALLS.items():
            function = getattr(library, name)
            function.restype, function.argtypes = answer, arguments
    except (OSError, AttributeError) as why:
        raise ImportError(f"{file} is not the library of this module: run ./gpmf lib in the repository ({why})") from why
    return library


_C = _library()


# ---- what is handed over: numbers in range, and memory that stays where it is for as long as a call takes


def _unsigned(number: int, bits: int) -> int:
    """A whole number from 0 on."""
    number = operator.index(number)
    if number < 0:
        raise ValueError("a number below 0, where one from 0 on is wanted")
    if number >> bits:
        raise OverflowError(f"a number that does not fit {bits} bits")
    return number


def _signed(number: int, bits: int) -> int:
    """A whole number with a sign."""
    number = operator.index(number)
    if not -1 << bits - 1 <= number < 1 << bits - 1:
        raise OverflowError(f"a number that does not fit {bits} bits with a sign")
    return number


def _size(number: int) -> int:
    """A place, or a count."""
    return _unsigned(number, 64)


def _flag(word: bool) -> bool:
    """False or True, and nothing that counts as one."""
    if not isinstance(word, bool):
        raise TypeError(f"False or True is wanted, not {type(word).__name__}")
    return word


def _single(number: float) -> float:
    """A number that a float of 32 bits can hold, rounded."""
    wide = c_double(number).value
    struct.pack("<f", wide)
    return wide


def _letter(letter: str) -> int:
    """The byte of a type's letter."""
    if not isinstance(letter, str):
        raise TypeError(f"a letter is wanted, not {type(letter).__name__}")
    if len(letter) != 1 or ord(letter) > 255:
        raise ValueError("one letter of Latin-1 is wanted")
    return ord(letter)


def _unfit(view: memoryview, error: Exception) -> Exception:
    """The error for memory that no call takes. The view is let go of: the error's frames have it, and the memory could not be resized for as long as the error lives."""
    view.release()
    return error


class _Lent:
    """Memory that is lent to a call: so many numbers of one size, which the call may write where it is said to."""

    def __init__(self, view: memoryview, written: bool) -> None:
        if not view.c_contiguous:
            raise _unfit(view, ValueError("memory without gaps is wanted"))
        if written and view.readonly:
            raise _unfit(view, TypeError(f"memory that can be written is wanted, not {type(view.obj).__name__}"))
        self.view, self.written = view, written
        self._held = _PyBuffer()

    def __enter__(self) -> Tuple[Optional[int], int]:
        """Its address, and how many numbers there are; of none there is no address."""
        _hold(self.view, ctypes.byref(self._held), 0)
        count = self.view.nbytes // self.view.itemsize
        if count and self._held.buf % self.view.itemsize:
            self.__exit__()
            raise ValueError(f"numbers of {self.view.itemsize} bytes do not begin at a multiple of that")
        return self._held.buf if count else None, count

    def __exit__(self, *_: object) -> None:
        _let_go(ctypes.byref(self._held))

    def overlaps(self, other: _Lent) -> bool:
        """Whether a byte belongs to both, while both are held."""
        one, another = self._held, other._held
        return bool(one.len and another.len and one.buf < another.buf + another.len and another.buf < one.buf + one.len)


class _PyBuffer(ctypes.Structure):
    """Py_buffer of the interpreter: memory that stays where it is until it is let go."""

    _fields_ = [
        ("buf", c_void_p), ("obj", c_void_p), ("len", ctypes.c_ssize_t), ("itemsize", ctypes.c_ssize_t), ("readonly", ctypes.c_int), ("ndim", ctypes.c_int),
        ("format", c_void_p), ("shape", c_void_p), ("strides", c_void_p), ("suboffsets", c_void_p), ("internal", c_void_p),
    ]


_hold = ctypes.pythonapi["PyObject_GetBuffer"]  # by its name in brackets it is one of this module's own, whose types no other module sees
_hold.argtypes = [ctypes.py_object, c_void_p, ctypes.c_int]
_let_go = ctypes.pythonapi["PyBuffer_Release"]
_let_go.argtypes, _let_go.restype = [c_void_p], None


def _flat(memory: Bytes) -> memoryview:
    """Bytes one by one, whatever the shape that they are lent in: a slice of a view of two dimensions is one of its rows."""
    view = memoryview(memory)
    if view.itemsize != 1:
        raise _unfit(view, TypeError(f"bytes are wanted, not numbers of {view.itemsize} bytes"))
    if not view.c_contiguous:
        raise _unfit(view, ValueError("memory without gaps is wanted"))
    if view.ndim != 1 and view.nbytes == 0:
        return memoryview(bytearray())  # what has a 0 among two dimensions cannot be cast
    return view.cast("B")


def _bytes(memory: Bytes, written: bool = False) -> _Lent:
    """Bytes, where they lie."""
    return _Lent(_flat(memory), written)


def _numbers(memory: Numbers, written: bool = False) -> _Lent:
    """Numbers of 32 bits without a sign, where they lie."""
    view = memoryview(memory)
    if view.format.lstrip("@=<") not in ("I", "L") or view.itemsize != 4:
        raise _unfit(view, TypeError("numbers of 32 bits are wanted, as in array.array('I')"))
    return _Lent(view, written)


def _long_numbers(memory: LongNumbers, written: bool = False) -> _Lent:
    """Numbers of 64 bits without a sign, where they lie."""
    view = memoryview(memory)
    if view.format.lstrip("@=<") not in ("Q", "L") or view.itemsize != 8:
        raise _unfit(view, TypeError("numbers of 64 bits are wanted, as in array.array('Q')"))
    return _Lent(view, written)


def _copied(letter: str, numbers: Iterable[Any]) -> _Lent:
    """Numbers copied into an array, whose letter says which fit."""
    return _Lent(memoryview(array.array(letter, iter(numbers))), False)


def _call(name: str, *arguments: Any) -> Any:
    """What a function of the library answers. Memory that it writes may overlap nothing else that it is lent."""
    lent = [each for each in arguments if isinstance(each, _Lent)]
    held: List[_Lent] = []
    handed: List[Any] = []
    try:
        for each in arguments:
            if isinstance(each, _Lent):
                handed += each.__enter__()
                held.append(each)
            else:
                handed.append(each)
        for at, one in enumerate(lent):
            if any((one.written or other.written) and one.overlaps(other) for other in lent[:at]):
                raise ValueError("memory that is written overlaps other memory of the same call")
        return getattr(_C, name)(*handed)
    finally:
        for each in held:
            each.__exit__()
        for each in lent:
            each.view.release()  # an error's frames would have it for as long as the error lives


# ---- what comes back


def _is(answer: Any) -> bool:
    """Whether there is something; a refusal is raised."""
    if answer.kind == REFUSED:
        raise Refusal(answer.number, answer.place)
    return bool(answer.kind == IS)


def _whole(answer: gpmf_whole_answer) -> int:
    """The whole number that is there for certain, unless it is refused."""
    _is(answer)
    return int(answer.value)


def _whole_or_none(answer: gpmf_whole_answer) -> Optional[int]:
    return int(answer.value) if _is(answer) else None


_FORMS = ("signed_value", "unsigned_value", "single_value", "double_value")


def _number(number: gpmf_number) -> Number:
    """A number in the field of its form."""
    value: Number = getattr(number, _FORMS[number.form])
    return value


def _axes(axes: gpmf_axes) -> str:
    return bytes((axes.first, axes.second, axes.third)).decode("latin-1")


def _axes_or_none(answer: gpmf_axes_answer) -> Optional[str]:
    return _axes(answer.axes) if _is(answer) else None


# ---- keys, items and rows


def key_text(number: int) -> str:
    """A key as it is shown: its four letters, or x and eight hex digits where one of them cannot be seen."""
    letters = _unsigned(number, 32).to_bytes(4, "big")
    return letters.decode("ascii") if all(33 <= letter <= 126 for letter in letters) else "x" + letters.hex()


def key_number(text: str) -> int:
    """A key as one number, the first letter weighing most, of what key_text gives."""
    if not isinstance(text, str):
        raise TypeError(f"a key is wanted, not {type(text).__name__}")
    if len(text) == 9 and text[0] == "x" and set(text[1:]) <= set("0123456789abcdef"):
        return int(text[1:], 16)
    if len(text) != 4 or not all(33 <= ord(letter) <= 126 for letter in text):
        raise ValueError("a key has four letters, or x and eight hex digits")
    return int.from_bytes(text.encode("ascii"), "big")


def group_numbers(group: Optional[str]) -> Tuple[int, int]:
    """The kind and the key of a group as numbers: of a key, or with None of the caller's own."""
    return (GROUP_CALLER, 0) if group is None else (GROUP_BY_KEY, key_number(group))


class Tag(enum.IntEnum):
    """What an item is for, by its key."""

    OTHER = 0  # all other keys: known by the key alone
    DATA = 1  # the readings, under a key such as MWET, AALP, ACCL or GPS5
    UNIT = 2  # SIUN, UNIT
    MATRIX = 3  # MTRX
    SCALE = 4  # SCAL: what the readings are divided by
    TIMESTAMP_US = 5  # STMP: a time in microseconds
    NAME = 6  # STNM of a stream, DVNM of a device
    TMPC = 7  # a temperature
    TSMP = 8  # the samples so far
    ORIN = 9  # the order of the axes that come in
    ORIO = 10  # the order in which they are wanted


class Item(NamedTuple):
    """An item: its key, its type's letter, the size and the repeat of its samples, and the place of its header."""

    key: str
    type: str
    size: int
    repeat: int
    place: int = 0


class RowNumbers(NamedTuple):
    """A row as the eight numbers that it is kept in."""

    place: int
    group_kind: int
    group_key: int
    tag: int
    key: int
    shape: int
    type_place: int
    depth: int


class Row(NamedTuple):
    """A row of a reading: an item by its place, its group, its tag (0 for keys without one), its key, its type's letter, the size and the repeat of its samples,
    the place of the TYPE in force for a `?` item, and its depth."""

    place: int
    group: Optional[str]
    tag: int
    key: str
    type: str
    size: int
    repeat: int
    type_place: Optional[int]
    depth: int

    @classmethod
    def of(cls, numbers: RowNumbers) -> Row:
        """A row of its eight numbers."""
        return cls(
            place=numbers.place,
            group=key_text(numbers.group_key) if numbers.group_kind else None,
            tag=numbers.tag,
            key=key_text(numbers.key),
            type=chr(numbers.shape >> 24),
            size=numbers.shape >> 16 & 255,
            repeat=numbers.shape & 65535,
            type_place=None if numbers.type_place == NO_TYPE else numbers.type_place,
            depth=numbers.depth,
        )


ItemOrPlace = Union[Row, Item, int]


def _place_and_type(item: ItemOrPlace, type_place: Optional[int]) -> Tuple[int, int]:
    """The place of an item and that of its TYPE, which a row has and which else is given."""
    if type_place is None and isinstance(item, Row):
        type_place = item.type_place
    at = item.place if isinstance(item, (Row, Item)) else item
    return _size(at), NO_TYPE if type_place is None else _size(type_place)


def _klv(item: Union[Item, Row]) -> gpmf_klv:
    """The header of an item."""
    if not isinstance(item, (Item, Row)):
        raise TypeError(f"an Item or a Row is wanted, not {type(item).__name__}")
    return gpmf_klv(key_number(item.key), _letter(item.type), _unsigned(item.size, 8), _unsigned(item.repeat, 16))


def _item(answer: gpmf_item_answer) -> Item:
    klv = answer.klv
    return Item(key_text(klv.key), chr(klv.data_type), klv.size, klv.repeat, answer.place)


def _item_or_none(answer: gpmf_item_answer) -> Optional[Item]:
    return _item(answer) if _is(answer) else None


# ---- readings


class Reading(Sequence[Row]):
    """What a payload is read as: its rows, in order, and how many headers were read, one for each item."""

    def __init__(self, payload: Bytes, numbers: Numbers, count: int, headers: int) -> None:
        self.payload = payload
        self.numbers = numbers  # of the rows, for the calls that ask for these
        self.headers = headers
        self._count = count

    def __len__(self) -> int:
        return self._count

    @overload
    def __getitem__(self, index: int) -> Row: ...

    @overload
    def __getitem__(self, index: slice) -> List[Row]: ...

    def __getitem__(self, index: Union[int, slice]) -> Union[Row, List[Row]]:
        if isinstance(index, slice):
            return [self[each] for each in range(*index.indices(len(self)))]
        numbers = row_at(self.numbers, range(len(self))[index])
        if numbers is None:
            raise Refusal(5, 0)  # as the library says of rows that are claimed without room; at an IndexError a loop would end as if there were no more
        return Row.of(numbers)

    def __repr__(self) -> str:
        return f"<gpmf.Reading: {len(self)} rows, {self.headers} headers>"

    def lookup(self, group: Optional[str], tag_or_key: Union[int, str]) -> Optional[Row]:
        """The last row of a group and a tag, or of a group and a key. Keys that share a tag are told apart."""
        if not isinstance(tag_or_key, str):
            if Tag(tag_or_key) is Tag.OTHER:
                raise ValueError("what has no tag is looked for by its key")
            index = lookup(self.numbers, len(self), *group_numbers(group), Tag(tag_or_key), 0)
            return None if index is None else self[index]
        tag, key = tag_id(tag_or_key), key_number(tag_or_key)
        index = lookup(self.numbers, len(self), *group_numbers(group), tag, key)
        while index is not None and key_number(self[index].key) != key:  # as numbers, for a key may be asked for in hex
            index = lookup(self.numbers, index, *group_numbers(group), tag, key)
        return None if index is None else self[index]

    def element(self, row: Row, n: int, column: int) -> Number:
        """The element of a row's value, in its n-th row and at a column."""
        return element(self.payload, row, n, column)

    def shape(self, row: Row) -> Shape:
        """What the value of a row is called, its rows, and the columns of its first row."""
        return shape(self.payload, row)

    def elements(self, row: Row) -> List[List[Number]]:
        """All elements of a row's value, row by row."""
        return elements(self.payload, row)

    def value(self, row: Row) -> Value:
        """The whole value of a row, as value gives it."""
        return value(self.payload, row)

    def stamp_us(self, group: Optional[str]) -> Optional[int]:
        """The stamp of a group, in microseconds of the camera's clock."""
        return stamp_us(self.payload, self.numbers, len(self), *group_numbers(group))

    def quaternion(self, group: Optional[str], n: int) -> Optional[Quaternion]:
        """The n-th quaternion of a group, from 0, scaled by the group's SCAL."""
        return scaled_quaternion(self.payload, self.numbers, len(self), *group_numbers(group), n)

    def orientation(self, group: Optional[str]) -> Optional[str]:
        """The axes of a group by its MTRX, or where it has none by its ORIN and ORIO."""
        return orientation_of_group(self.payload, self.numbers, len(self), *group_numbers(group))


def _lent_rows(room: int) -> array.array[int]:
    """Numbers for so many rows."""
    if not 0 <= operator.index(room) <= MOST_ROWS:
        raise ValueError(f"room for 0 to {MOST_ROWS} rows is wanted")
    return array.array("I", bytes(4 * ROW_WIDTH * operator.index(room)))


def rows(payload: Bytes, forced: bool = False, room: int = MOST_ROWS) -> Reading:
    """The reading of a payload. With forced, every item has the caller's group. Refused with 1 to 5."""
    numbers = _lent_rows(room)
    count, headers = parse_metadata(payload, forced, numbers)
    return Reading(payload, numbers[: ROW_WIDTH * count], count, headers)


def parse_metadata(payload: Bytes, forced: bool, rows: Numbers) -> Tuple[int, int]:
    """The counts of rows and headers (one for each item) of a payload, whose rows go into lent numbers, eight each.
    Refused with 1 to 5, and then the numbers stay as they were."""
    answer = _call("gpmf_parse_metadata", _bytes(payload), _flag(forced), _numbers(rows, written=True))
    _is(answer)
    return answer.rows, answer.headers


def room(numbers: int) -> int:
    """How many rows so many numbers have room for: an eighth, rounded down, and at most 4096."""
    return int(_C.gpmf_room(_size(numbers)))


def row_at(rows: Numbers, n: int) -> Optional[RowNumbers]:
    """The n-th row in lent numbers, from 0; None where they have no room for such a row."""
    answer = _call("gpmf_row_at", _numbers(rows), _size(n))
    return RowNumbers(*(getattr(answer.row, field) for field in RowNumbers._fields)) if _is(answer) else None


def put_row(out: Numbers, n: int, row: RowNumbers) -> bool:
    """Stores a row as the n-th, and tells whether there is room for it."""
    return bool(_call("gpmf_put_row", _numbers(out, written=True), _size(n), gpmf_row(*(_unsigned(number, 32) for number in RowNumbers(*row)))))


def lookup(rows: Numbers, count: int, group_kind: int, group_key: int, tag: int, key: int) -> Optional[int]:
    """The index of the last of the first `count` rows that has the group and the tag, and under tag 0 the key too. Refused with 5 where so many rows have no room."""
    return _whole_or_none(_call("gpmf_lookup", _numbers(rows), _size(count), *(_unsigned(number, 32) for number in (group_kind, group_key, tag, key))))


def last_item(payload: Bytes, at: int) -> Optional[Item]:
    """The last item of the level from a place to the end. Refused with 2 or 3, at the place where the search stops."""
    return _item_or_none(_call("gpmf_last_item", _bytes(payload), _size(at)))


def get_last_klv(payload: Bytes) -> Optional[Item]:
    """The last item of a payload. Refused with 1, 2 or 3."""
    return _item_or_none(_call("gpmf_get_last_klv", _bytes(payload)))


# ---- values: of an item by its row, or by the place of its header, and then with the place of its TYPE where it is a `?`


class Kind(enum.IntEnum):
    """What a value is called."""

    SINGLE = 0  # one number
    LIST = 1  # a number a row
    VECTOR = 2  # three a row
    TIMED_VECTOR = 3  # four a row
    NESTED = 4  # any other count a row
    TEXT = 5  # one Latin-1 text: its bytes are the columns
    TEXTS = 6  # a UTF-8 text a row
    IDENTIFIER = 7  # four 32-bit numbers
    DATE_TIME = 8  # milliseconds since 1970
    QUATERNIONS = 9  # w x y z a row, as they stand
    STRUCTURES = 10  # a structure a row, by its TYPE
    UNKNOWN = 11  # of a type that is not read: no elements


class Shape(NamedTuple):
    """What a value is called, its rows, and the columns of its first row."""

    kind: Kind
    rows: int
    columns: int


def element(payload: Bytes, item: ItemOrPlace, row: int, column: int, type_place: Optional[int] = None) -> Number:
    """The element at a row and a column of an item's value. Refused with 1, at place 0, or with 2, 6, 7, 8, 12 or 13, at the item's place. Here and in the calls below,
    a type_place of NO_TYPE is none. Each call goes through the whole TYPE text of a structure, or through all texts of a value: for all elements take elements or value."""
    answer = _call("gpmf_element", _bytes(payload), *_place_and_type(item, type_place), _size(row), _size(column))
    _is(answer)
    return _number(answer.element)


def shape(payload: Bytes, item: ItemOrPlace, type_place: Optional[int] = None) -> Shape:
    """What an item's value is called, its rows, and the columns of its first row. Refused as an element is, but for 13."""
    answer = _call("gpmf_shape_at", _bytes(payload), *_place_and_type(item, type_place))
    _is(answer)
    return Shape(Kind(answer.value_kind), answer.rows, answer.columns)


def columns(payload: Bytes, item: ItemOrPlace, row: int, type_place: Optional[int] = None) -> int:
    """The columns of a row of an item's value: of a text, its bytes. Refused as an element is; with 13 where the row lies outside."""
    return _whole(_call("gpmf_columns_at", _bytes(payload), *_place_and_type(item, type_place), _size(row)))


def klv_at(payload: Bytes, item: ItemOrPlace, type_place: Optional[int] = None) -> Item:
    """The header of an item that has a value. Refused with 1, at place 0, or with 2 or 12, at the item's place."""
    answer = _call("gpmf_klv_at", _bytes(payload), *_place_and_type(item, type_place))
    _is(answer)
    return _item(answer)


def bytes_at(payload: Bytes, item: ItemOrPlace, type_place: Optional[int] = None) -> memoryview:
    """An item's own bytes, those behind its header, as a part of the payload. Refused as klv_at."""
    return _part(payload, _call("gpmf_bytes_at", _bytes(payload), *_place_and_type(item, type_place)))


def text_at(payload: Bytes, item: ItemOrPlace, row: int, type_place: Optional[int] = None) -> memoryview:
    """The text of a row of an item's value, as a part of the payload: of one text without the zeros behind it, of several up to the first zero. Refused as an element is;
    with 13 too where the value is no text."""
    return _part(payload, _call("gpmf_text_at", _bytes(payload), *_place_and_type(item, type_place), _size(row)))


def _part(payload: Bytes, answer: gpmf_part_answer) -> memoryview:
    _is(answer)
    return _flat(payload)[answer.start : answer.start + answer.length]


def elements(payload: Bytes, item: ItemOrPlace, type_place: Optional[int] = None) -> List[List[Number]]:
    """All elements of an item's value, row by row. Refused as a shape is."""
    at, type_at = _place_and_type(item, type_place)
    return _elements(payload, at, type_at, shape(payload, at, type_at))


def _elements(payload: Bytes, at: int, type_at: int, has: Shape) -> List[List[Number]]:
    """The same of a value whose shape is known. element would write the TYPE text of a structure out for each."""
    if has.kind in (Kind.TEXT, Kind.TEXTS):
        return [list(text) for text in _kept(payload, at, has)]
    numbers = array.array("Q", bytes(8 * has.rows * has.columns))
    elements_at(payload, at, numbers, type_at)
    if has.kind == Kind.STRUCTURES and has.columns:
        columns = [_of_bits(numbers[n :: has.columns], letter) for n, letter in enumerate(_letters(payload, type_at))]
        return [list(row) for row in zip(*columns)]
    found = _of_bits(numbers, klv_at(payload, at, type_at).type)
    return [found[row * has.columns : (row + 1) * has.columns] for row in range(has.rows)]


def _letters(payload: Bytes, type_at: int) -> str:
    """The letters of a structure's columns: those of its TYPE, written out, that read something."""
    return "".join(letter for letter in resolve_custom_type(text_at(payload, type_at, 0)).decode("latin-1") if width(letter))


def _of_bits(numbers: array.array[int], letter: str) -> List[Any]:
    """The elements of one letter whose bits elements_at tells."""
    if letter in "bslj":
        return array.array("q", numbers.tobytes()).tolist()
    if letter in "fq":
        return array.array("f", array.array("I", numbers).tobytes()).tolist()
    if letter in "dQ":
        return array.array("d", numbers.tobytes()).tolist()
    return numbers.tolist()


def elements_at(payload: Bytes, item: ItemOrPlace, numbers: LongNumbers, type_place: Optional[int] = None) -> int:
    """All elements of an item's value, each as one number, row after row and in a row column after column; how many there are. The numbers behind them stay as they were.
    A signed element is its two's complement in 64 bits, a float its bits (single_bits, double_bits). Refused as a shape is; with 5, at the item's place, where they do
    not fit. Where it is refused, all numbers stay as they were."""
    return _whole(_call("gpmf_elements_at", _bytes(payload), *_place_and_type(item, type_place), _long_numbers(numbers, written=True)))


def _kept(payload: Bytes, at: int, has: Shape) -> Iterator[bytes]:
    """The kept bytes of each text of a value that is readable. text_at would look at all texts for each."""
    item = parse_header(payload, at)
    size = data_len(item) if has.kind == Kind.TEXT else item.size
    length = latin1_len if has.kind == Kind.TEXT else utf8_len
    every = _flat(payload)[at + 8 : at + 8 + has.rows * size]
    for row in range(has.rows):
        text = every[row * size : (row + 1) * size]
        yield bytes(text[: length(text)])


def value(payload: Bytes, item: ItemOrPlace, type_place: Optional[int] = None) -> Value:
    """The whole value of an item, refused as a shape is: a number, a list of them, or a list for each row; a text or a list of these; a date as a datetime in UTC, which
    for a date or a time that is impossible is the start of 1970; the four numbers of an identifier; None for a type that is not read."""
    at, type_at = _place_and_type(item, type_place)
    has = shape(payload, at, type_at)
    if has.kind == Kind.UNKNOWN:
        return None
    if has.kind == Kind.TEXT:
        return next(_kept(payload, at, has)).decode("latin-1")
    if has.kind == Kind.TEXTS:
        return [text.decode("utf-8") for text in _kept(payload, at, has)]
    found = _elements(payload, at, type_at, has)
    if has.kind == Kind.DATE_TIME:
        return utc(int(found[0][0]))
    if has.kind == Kind.LIST:
        return [row[0] for row in found]
    if has.kind == Kind.SINGLE:
        return found[0][0]
    return found[0] if has.kind == Kind.IDENTIFIER else found


def utc(milliseconds: int) -> datetime.datetime:
    """The date so many milliseconds after the start of 1970, in UTC."""
    return datetime.datetime(1970, 1, 1, tzinfo=datetime.timezone.utc) + datetime.timedelta(milliseconds=_size(milliseconds))


# ---- packets of a raw file


@dataclasses.dataclass(frozen=True, eq=False)
class Packet:
    """A packet of a raw file: its number, from 1, where its payload starts in the file, how many bytes it has, and what they are read as: either a reading, or a
    refusal."""

    number: int
    start: int
    length: int
    reading: Optional[Reading]
    refusal: Optional[Refusal]
    forced: bool = dataclasses.field(repr=False)
    room: int = dataclasses.field(repr=False)
    _payload: Optional[Bytes] = dataclasses.field(repr=False)

    @property
    def payload(self) -> Bytes:
        """The bytes. Those of a packet over the limit are not held, and its refusal is raised."""
        if self._payload is None:
            raise Refusal(1, 0)
        return self._payload

    def front(self) -> Reading:
        """For the mixer: the reading, or where that is refused the reading of what stands before its place, with the same room."""
        if self.reading is not None:
            return self.reading
        if self._payload is None:
            return rows(b"", self.forced, self.room)
        assert self.refusal is not None  # what has no reading has one
        return rows(_flat(self._payload)[: self.refusal.place], self.forced, self.room)


class More(NamedTuple):
    """Not known before more is lent: of the file from a place of the window on, or more room."""

    place: int


class Cut(NamedTuple):
    """A packet from a start up to an end, and the place to go on from."""

    start: int
    end: int
    rest: int


class ReadCut(NamedTuple):
    """A packet from a start up to an end, the place to go on from, and how many rows and headers it has, or its refusal. Of a packet that is over the limit wherever
    it ends, the end is None."""

    start: int
    end: Optional[int]
    rest: int
    rows: int
    headers: int
    refusal: Optional[Refusal]


def packets(file: Bytes, forced: bool = False, room: int = MOST_ROWS) -> Iterator[Packet]:
    """The packets of a raw file in memory, in order. Their payloads are parts of it, and not copied."""
    _bytes(file)
    return _packets(file, _flag(forced), room, _lent_rows(room))


def _packets(file: Bytes, forced: bool, room: int, lent: array.array[int]) -> Iterator[Packet]:
    number = 1
    cut = next_metadata(file, 0, forced, lent)
    while cut is not None:
        yield _packet(number, 0, cut, _flat(file)[cut.start : cut.end], forced, room, lent)
        number += 1
        cut = next_metadata(file, cut.rest, forced, lent)


def _packet(number: int, window: int, cut: ReadCut, payload: Bytes, forced: bool, room: int, lent: array.array[int]) -> Packet:
    """A packet that was cut out of a window that begins at a place of the file, with its rows still in the numbers that were lent."""
    held = None if cut.refusal is not None and cut.refusal.number == 1 else payload
    reading = Reading(payload, lent[: ROW_WIDTH * cut.rows], cut.rows, cut.headers) if cut.refusal is None else None
    return Packet(number, window + cut.start, len(payload), reading, cut.refusal, forced, room, held)


def open_take(source: Union[str, os.PathLike[str], BinaryIO], forced: bool = False, room: int = MOST_ROWS, piece: int = 65536) -> Take:
    """The packets of a raw file by its path, or of a file that is open for reading bytes, read in pieces of so many bytes. An open file is read from where it stands, and places
    count from there."""
    return Take(source, forced, room, piece)


class Take(Iterator[Packet]):
    """The packets of a raw file that is read piece by piece, in order. At most a packet, of the most bytes that a payload may have, and a piece are held. A file that
    was opened here is closed behind the last packet, or by close, or at the end of a `with`."""

    def __init__(self, source: Union[str, os.PathLike[str], BinaryIO], forced: bool, room: int, piece: int) -> None:
        self._forced, self._room, self._rows = _flag(forced), room, _lent_rows(room)
        self._window = _Window(_piece(piece))
        self._opened = open(source, "rb") if isinstance(source, (str, os.PathLike)) else None
        self._file = self._opened or source
        if not hasattr(self._file, "read"):
            raise TypeError(f"a path or an open file is wanted, not {type(source).__name__}")
        self._ready: Deque[Packet] = collections.deque()
        self._long: List[Tuple[int, int]] = []  # packets over the limit whose end is not known yet: number and start
        self._at, self._number, self._ended = 0, 0, False

    def close(self) -> None:
        """Closes a file that was opened here, and ends the take: no packet comes after that."""
        self._ready.clear()
        self._end()

    def _end(self) -> None:
        """Closes a file that was opened here, and reads no more. Packets that are ready still come."""
        self._ended = True
        if self._opened is not None:
            self._opened.close()

    def __enter__(self) -> Take:
        return self

    def __exit__(self, kind: Optional[Type[BaseException]], error: Optional[BaseException], trace: Optional[TracebackType]) -> None:
        self.close()

    def __next__(self) -> Packet:
        while not self._ready:
            if self._ended:
                raise StopIteration
            self._go_on()
        return self._ready.popleft()

    def _go_on(self) -> None:
        """The next packet, or the next piece, or the end."""
        window = self._window
        if not window.news:
            window.read(self._file)
            return
        cut = next_metadata_in(window.held, self._at, window.more, self._forced, self._rows)
        if isinstance(cut, More):
            window.let_go(cut.place)  # together with the cursor, and before a read that may raise: so the window can always be gone on with
            self._at = 0
        elif cut is None:
            self._end_with_the_file()
            self._end()
        else:
            self._at = cut.rest
            self._take_in(cut)

    def _take_in(self, cut: ReadCut) -> None:
        """A packet: it is ready, or over the limit. Those over the limit that start before its DEVC end there; of two less than 8 apart both end together."""
        self._number += 1
        begin = self._window.start
        for number, start in self._long:
            if start <= begin + cut.start - 8:
                self._end_long(number, start, begin + cut.start - 8)
            elif cut.end is not None:
                self._end_long(number, start, begin + cut.end)
        if cut.end is None:
            self._long = [each for each in self._long if each[1] > begin + cut.start - 8] + [(self._number, begin + cut.start)]
            return
        self._long = []
        payload = bytes(memoryview(self._window.held)[cut.start : cut.end])
        self._ready.append(_packet(self._number, begin, cut, payload, self._forced, self._room, self._rows))

    def _end_long(self, number: int, start: int, end: int) -> None:
        """A packet over the limit is ready: its end is known."""
        self._ready.append(Packet(number, start, end - start, None, Refusal(1, 0), self._forced, self._room, None))

    def _end_with_the_file(self) -> None:
        """The packets over the limit end with the file, or at a DEVC near its end that starts none."""
        window = self._window
        for number, start in self._long:
            devc = find_devc(window.held, max(start - window.start, 0))
            self._end_long(number, start, window.start + (len(window.held) if devc is None else devc))


def _piece(piece: int) -> int:
    """How many bytes are read at once."""
    if not 1 <= operator.index(piece) <= 2**31 - 1:
        raise ValueError("a piece has 1 to 2147483647 bytes")
    return operator.index(piece)


class _Window:
    """The part of a file that is held: where it begins in the file, its bytes, whether more may follow, and whether a packet may be told that was not yet."""

    def __init__(self, piece: int) -> None:
        self.piece, self.start, self.held, self.more, self.news = piece, 0, bytearray(), True, False

    def let_go(self, place: int) -> None:
        """Lets go of the bytes before a place, where those behind it tell no packet before more is read."""
        del self.held[:place]
        self.start += place
        self.news = False

    def read(self, file: Any) -> None:
        """Reads a piece more, or raises and leaves what is held."""
        piece = file.read(self.piece)
        if piece is None:
            raise BlockingIOError("the file has no bytes yet, and does not wait for them")
        view = memoryview(piece)
        if view.nbytes > self.piece:
            raise ValueError("the file's read gave more bytes than were asked for")
        searched = max(len(self.held) - 3, 0)  # what stands before was searched; a DEVC that is cut off may begin in the last three bytes
        self.held += view
        self.more = view.nbytes > 0
        self.news = self._is_news(searched)

    def _is_news(self, searched: int) -> bool:
        """Whether a packet may be told now: it may at the end of the file, over the limit, and where none begins the window. Else its end is sought, in the bytes that were
        not searched yet: the library would search the whole packet anew for each small piece."""
        if not self.more or len(self.held) > MOST_BYTES or not self.held.startswith(b"DEVC"):
            return True
        return find_devc(self.held, searched) is not None


def find_devc(file: Bytes, start: int = 0) -> Optional[int]:
    """The place of the first DEVC from a place on."""
    return _whole_or_none(_call("gpmf_find_devc", _bytes(file), _size(start)))


def packets_next(file: Bytes, at: int) -> Optional[Cut]:
    """The next packet of a file in memory, whose DEVC stands at a place or behind it; None at the end."""
    answer = _call("gpmf_packets_next", _C.gpmf_packets_new(_size(at)), _bytes(file))
    return Cut(answer.packet.start, answer.packet.end, answer.rest.at) if _is(answer) else None


def packets_next_in(window: Bytes, at: int, more: bool) -> Union[Cut, More, None]:
    """The same in a window of a file that is read piece by piece; more: bytes of the file follow the window. After More, go on with a window that begins at its
    place of this one, and in that at 0."""
    answer = _call("gpmf_packets_next_in", _C.gpmf_packets_new(_size(at)), _bytes(window), _flag(more))
    if answer.kind == MORE:
        return More(answer.place)
    return Cut(answer.packet.start, answer.packet.end, answer.rest.at) if _is(answer) else None


def next_metadata(file: Bytes, at: int, forced: bool, rows: Numbers) -> Optional[ReadCut]:
    """The next packet of a file, and what its payload is read as; its rows go into lent numbers, and their places count from the packet's start."""
    answer = _call("gpmf_next_metadata", _C.gpmf_packets_new(_size(at)), _bytes(file), _flag(forced), _numbers(rows, written=True))
    return _read_cut(answer) if _is(answer) else None


def next_metadata_in(window: Bytes, at: int, more: bool, forced: bool, rows: Numbers) -> Union[ReadCut, More, None]:
    """The same in a window of a file, as packets_next_in."""
    answer = _call("gpmf_next_metadata_in", _C.gpmf_packets_new(_size(at)), _bytes(window), _flag(more), _flag(forced), _numbers(rows, written=True))
    if answer.kind == MORE:
        return More(answer.place)
    if answer.kind == REFUSED:
        return ReadCut(answer.packet.start, None, answer.rest.at, 0, 0, Refusal(answer.number, answer.place))
    return _read_cut(answer) if _is(answer) else None


def _read_cut(answer: gpmf_packet_metadata_answer) -> ReadCut:
    packet, metadata = answer.packet, answer.metadata
    refusal = Refusal(metadata.number, metadata.place) if metadata.kind == REFUSED else None
    return ReadCut(packet.start, packet.end, answer.rest.at, metadata.rows, metadata.headers, refusal)


# ---- items


class Group(NamedTuple):
    """The group that a key names: its number in the table of groups, 0 for others, and the key."""

    number: int
    key: str


def parse_header(payload: Bytes, at: int) -> Item:
    """The item whose header stands at a place, and whose payload is all there. Refused with 12 where fewer than 8 bytes are left, with 2 where the payload runs past
    the end."""
    answer = _call("gpmf_parse_header", _C.gpmf_cursor_new(_size(at)), _bytes(payload))
    _is(answer)
    return _item(answer)


def data_len(item: Union[Item, Row]) -> int:
    """The length of an item's payload: size times repeat."""
    return int(_C.gpmf_data_len(_klv(item)))


def aligned_data_len(item: Union[Item, Row]) -> int:
    """The same with its padding to a multiple of four."""
    return int(_C.gpmf_aligned_data_len(_klv(item)))


def is_one_text(item: Union[Item, Row]) -> bool:
    """Whether the value is one text: type F, or c with repeat 1 or size 1."""
    return bool(_C.gpmf_is_one_text(_klv(item)))


def is_type_text(item: Union[Item, Row]) -> bool:
    """Whether the item is a TYPE whose value is one text."""
    return bool(_C.gpmf_is_type_text(_klv(item)))


def is_one_number(item: Union[Item, Row], letter: str) -> bool:
    """Whether a header's type, size and repeat are those of one number of a letter. Its key is not looked at: `s` under CORI or IORI is quaternions all the same."""
    return bool(_C.gpmf_is_one_number(_klv(item), _letter(letter)))


def tag_id(key: str) -> int:
    """The number of a key in the table of tags, 1 to 10; 0 for others."""
    return int(_C.gpmf_tag_id(key_number(key)))


def group_from_key(key: str) -> Group:
    """The group that a key names."""
    group = _C.gpmf_group_from_key(key_number(key))
    return Group(group.number, key_text(group.key))


def big_endian(part: Bytes) -> int:
    """The number that bytes stand for, the first weighing most; the first eight where there are more."""
    return int(_call("gpmf_big_endian", _bytes(part)))


# ---- numbers


def q15_16(high: int, low: int) -> float:
    """high + low / 65536 in float."""
    return float(_C.gpmf_q15_16(_signed(high, 16), _unsigned(low, 16)))


def q31_32(high: int, low: int) -> float:
    """high + low / 4294967295 in double."""
    return float(_C.gpmf_q31_32(_signed(high, 32), _unsigned(low, 32)))


def q31_32_exact(high: int, low: int) -> fractions.Fraction:
    """The same with nothing rounded."""
    return _fraction(_C.gpmf_q31_32_exact(_signed(high, 32), _unsigned(low, 32)))


def _fraction(exact: gpmf_exact) -> fractions.Fraction:
    return fractions.Fraction(exact.numerator, exact.denominator)


def width(letter: str) -> int:
    """The bytes of one element of a type; 0 for a letter that reads nothing."""
    return int(_C.gpmf_width(_letter(letter)))


def element_at(payload: Bytes, at: int, letter: str) -> Number:
    """What the bytes at a place stand for, by the letter of a type; 0 where they are not all there."""
    return _number(_call("gpmf_element_at", _bytes(payload), _size(at), _letter(letter)))


def exact_at(payload: Bytes, at: int) -> fractions.Fraction:
    """The exact form of the Q number at a place; 0 where its bytes are not all there."""
    return _fraction(_call("gpmf_exact_at", _bytes(payload), _size(at)))


def single_bits(x: float) -> int:
    """The bits of a number as a float of 32 bits; of every NaN those of one."""
    return int(_C.gpmf_single_bits(_single(x)))


def double_bits(x: float) -> int:
    """The bits of a float of 64 bits; of every NaN those of one."""
    return int(_C.gpmf_double_bits(c_double(x)))


# ---- texts and dates


def resolve_custom_type(text: Bytes) -> bytes:
    """A TYPE text written out. Refused with 8 where it is over 256 characters."""
    out = (c_uint8 * 256)()
    return bytes(out[: _whole(_call("gpmf_resolve_custom_type", _bytes(text), ctypes.addressof(out)))])


def latin1_len(text: Bytes) -> int:
    """How many bytes of a Latin-1 text are kept: all but its trailing zeros."""
    return int(_call("gpmf_latin1_len", _bytes(text)))


def utf8_len(text: Bytes) -> int:
    """How many bytes a UTF-8 text has up to its first zero."""
    return int(_call("gpmf_utf8_len", _bytes(text)))


def is_utf8(text: Bytes) -> bool:
    """Whether bytes are well-formed UTF-8."""
    return bool(_call("gpmf_is_utf8", _bytes(text)))


def are_utf8(texts: Bytes, size: int) -> bool:
    """Whether each run of so many bytes is, up to its first zero; with size 0, the whole."""
    return bool(_call("gpmf_are_utf8", _bytes(texts), _size(size)))


def parse_utcdate(text: Bytes) -> int:
    """Milliseconds from the start of 1970 to the date yymmddhhmmss.sss, 0 for a date or a time that is impossible. Refused with 6 under 16 bytes, with 7 where it is
    not readable."""
    return _whole(_call("gpmf_parse_utcdate", _bytes(text)))


# ---- what the first rows of a reading lead to, for a group by its kind and its key as numbers; a Reading asks these for its own


class Quaternion(NamedTuple):
    """A quaternion."""

    w: float
    x: float
    y: float
    z: float


def _of_group(payload: Bytes, rows: Numbers, count: int, group_kind: int, group_key: int) -> Tuple[Any, ...]:
    """The arguments that these calls begin with."""
    return _bytes(payload), _numbers(rows), _size(count), _unsigned(group_kind, 32), _unsigned(group_key, 32)


def tagged_item(payload: Bytes, rows: Numbers, count: int, group_kind: int, group_key: int, tag: int, key: int) -> Optional[Item]:
    """The item whose row is the last that has the group and the tag, and under tag 0 the key too. None where there is no such row. Refused with 1, at place 0, with 5 as
    lookup, or with 2 or 12, at the row's place, where that holds no such item."""
    group = _of_group(payload, rows, count, group_kind, group_key)
    return _item_or_none(_call("gpmf_tagged_item", *group, _unsigned(tag, 32), _unsigned(key, 32)))


def stamp_us(payload: Bytes, rows: Numbers, count: int, group_kind: int, group_key: int) -> Optional[int]:
    """The stamp of a group, in microseconds of the camera's clock: its STMP, if that is one J number or a date (of which these are the milliseconds as they are), else
    its TICK, if that is one L number, times 1000. Refused as tagged_item; with 6 or 7 too, at the place of STMP, for a date."""
    return _whole_or_none(_call("gpmf_stamp_us", *_of_group(payload, rows, count, group_kind, group_key)))


def scaled_quaternion(payload: Bytes, rows: Numbers, count: int, group_kind: int, group_key: int, row: int) -> Optional[Quaternion]:
    """The quaternion of a row of CORI or IORI, scaled by the group's SCAL if that is one s number, else by 32767; None where the group has no data, or these are no
    quaternions. Refused as tagged_item, of the data or of SCAL; with 6 or 13 too, at the place of the data."""
    answer = _call("gpmf_scaled_quaternion", *_of_group(payload, rows, count, group_kind, group_key), _size(row))
    return _quaternion(answer.quaternion) if _is(answer) else None


def _quaternion(quaternion: gpmf_quaternion) -> Quaternion:
    return Quaternion(quaternion.w, quaternion.x, quaternion.y, quaternion.z)


def scaled(w: int, x: int, y: int, z: int, scale: float) -> Quaternion:
    """w, negated x, y and z over a scale."""
    return _quaternion(_C.gpmf_scaled(*(_signed(number, 16) for number in (w, x, y, z)), c_double(scale)))


def negated(x: int) -> int:
    """0 less x in 16 bits: -32768 stays."""
    return int(_C.gpmf_negated(_signed(x, 16)))


def orientation_of_group(payload: Bytes, rows: Numbers, count: int, group_kind: int, group_key: int) -> Optional[str]:
    """The axes of a group by its MTRX, or where it has none by its ORIN and ORIO; None where it has not these, or their types are others. Refused with 1, with 5 as
    lookup, with 2 or 12 at the place of one of them, and with 9 or 10 as the calls on axes."""
    return _axes_or_none(_call("gpmf_orientation_of_group", *_of_group(payload, rows, count, group_kind, group_key)))


def get_avg_sample_duration(
    counts: Sequence[int], has_stamp: Sequence[bool], stamps: Sequence[int], durations: Sequence[float], missing: Sequence[bool]
) -> Optional[float]:
    """Milliseconds for a reading, on average over as many packets as the shortest list has: readings, whether stamped, stamps in microseconds, durations in
    milliseconds, whether time is missing since the last stamped packet. None where there are no readings. Refused with 11."""
    lists = _copied("I", counts), _copied("B", map(_flag, has_stamp)), _copied("Q", stamps), _copied("d", durations), _copied("B", map(_flag, missing))
    answer = _call("gpmf_get_avg_sample_duration", *lists)
    return float(answer.value) if _is(answer) else None


# ---- axes: three characters; a camera's are X, Y and Z, small for the other direction


def orientations_of(orin: Bytes, orio: Bytes) -> Tuple[str, str]:
    """The axes that the texts of ORIN and ORIO name. Refused with 9."""
    answer = _call("gpmf_orientations_of", _bytes(orin), _bytes(orio))
    _is(answer)
    return _axes(answer.orin), _axes(answer.orio)


def _three(axes: str) -> gpmf_axes:
    if not isinstance(axes, str):
        raise TypeError(f"three letters are wanted, not {type(axes).__name__}")
    if len(axes) != 3:
        raise ValueError("three letters are wanted")
    return gpmf_axes(*map(_letter, axes))


def orientations_to_matrix(orin: str, orio: str) -> List[List[float]]:
    """A row for each ORIO letter, a column for each ORIN letter: 1 for the same, -1 for the other direction, else 0."""
    entries = list(_C.gpmf_orientations_to_matrix(_three(orin), _three(orio)).entries)
    return [entries[0:3], entries[3:6], entries[6:9]]


def matrix_to_orientation(matrix: Sequence[Sequence[float]]) -> str:
    """The axes that a matrix of three rows of three names. Refused with 10."""
    lines = [[_single(number) for number in row] for row in matrix]
    if [len(row) for row in lines] != [3, 3, 3]:
        raise ValueError("three rows of three numbers are wanted")
    answer = _C.gpmf_matrix_to_orientation(gpmf_matrix((c_float * 9)(*lines[0], *lines[1], *lines[2])))
    _is(answer)
    return _axes(answer.axes)


def mtrx_to_orientation(mtrx: Sequence[float]) -> str:
    """The same of the numbers of an MTRX. Refused with 10 where they are not nine."""
    answer = _call("gpmf_mtrx_to_orientation", _copied("f", map(_single, mtrx)))
    _is(answer)
    return _axes(answer.axes)


# ---- printing: text is laid into a buffer from a place on, and the answer is the place behind it; what does not fit is not laid and the answer is FULL, and from
# FULL on nothing is laid either, so that calls can follow one another without a test between them. A call that lays several parts, as lines, leaves those that were
# laid before the first that does not fit


class Taken(NamedTuple):
    """Where what was laid ends, and whether the packet was accepted."""

    end: int
    accepted: bool


def listing(payload: Bytes, room: int = MOST_ROWS) -> str:
    """The listing of a payload, as ./gpmf list prints it."""
    numbers = _lent_rows(room)
    out = bytearray(56 * (len(numbers) // ROW_WIDTH + 1))  # at most 56 bytes a row, and 56 more
    end = put_listing(payload, numbers, out, 0)
    if end == FULL:
        raise OverflowError("a listing that does not fit its buffer")
    return out[:end].decode("ascii")


def _out(out: Union[bytearray, memoryview], at: int) -> Tuple[_Lent, int]:
    """The arguments for a buffer and a place in it."""
    return _bytes(out, written=True), _size(at)


def put_listing(payload: Bytes, rows: Numbers, out: Union[bytearray, memoryview], at: int) -> int:
    """The listing of a payload: its first line, and a line a row; the rows go into lent numbers as in parse_metadata."""
    return int(_call("gpmf_list", _bytes(payload), _numbers(rows, written=True), *_out(out, at)))


def put_answer(out: Union[bytearray, memoryview], at: int, answer: Union[Refusal, Tuple[int, int]]) -> int:
    """The first line of a listing: of a refusal, or of the counts of rows and headers."""
    if isinstance(answer, Refusal):
        told = gpmf_metadata_answer(REFUSED, _unsigned(answer.number, 32), _size(answer.place), 0, 0)
    else:
        count, headers = answer
        told = gpmf_metadata_answer(IS, 0, 0, _size(count), _size(headers))
    return int(_call("gpmf_put_answer", *_out(out, at), told))


def put_rows(out: Union[bytearray, memoryview], at: int, rows: Numbers, count: int) -> int:
    """A line for each of the first `count` rows; the line of the refusal with 5 at 0 alone where `rows` has no room for so many."""
    return int(_call("gpmf_put_rows", *_out(out, at), _numbers(rows), _size(count)))


def put_packet(payload: Bytes, number: int, place: int, whole: bool, rows: Numbers, out: Union[bytearray, memoryview], at: int) -> Taken:
    """A packet of a take: its line, its listing, and where it is refused the listing of what stands before the place; with whole, nothing of a refused one.
    The rows of what is listed go into the lent numbers: of a refused packet those of its front, and with whole none."""
    taken = _call("gpmf_put_packet", _bytes(payload), _size(number), _size(place), _flag(whole), _numbers(rows, written=True), *_out(out, at))
    return Taken(taken.end, taken.accepted)


def put_long_packet(number: int, place: int, length: int, whole: bool, out: Union[bytearray, memoryview], at: int) -> int:
    """A packet of more bytes than are held: its line, its refusal with 1, and a front of no rows; with whole, nothing."""
    return int(_call("gpmf_put_long_packet", _size(number), _size(place), _size(length), _flag(whole), *_out(out, at)))


def put_totals(out: Union[bytearray, memoryview], at: int, packets: int, read: int, refused: int) -> int:
    """The last line of a take: its counts."""
    return int(_call("gpmf_put_totals", *_out(out, at), _size(packets), _size(read), _size(refused)))


def put(out: Union[bytearray, memoryview], at: int, b: int) -> int:
    """A byte."""
    return int(_call("gpmf_put", *_out(out, at), _unsigned(b, 8)))


def put_bytes(out: Union[bytearray, memoryview], at: int, text: Bytes) -> int:
    """Bytes."""
    return int(_call("gpmf_put_bytes", *_out(out, at), _bytes(text)))


def put_decimal(out: Union[bytearray, memoryview], at: int, n: int) -> int:
    """A number in decimal."""
    return int(_call("gpmf_put_decimal", *_out(out, at), _size(n)))


def put_hex(out: Union[bytearray, memoryview], at: int, n: int, count: int) -> int:
    """The last digits of a number in hex, so many of them."""
    return int(_call("gpmf_put_hex", *_out(out, at), _size(n), _size(count)))


def put_signed(out: Union[bytearray, memoryview], at: int, n: int) -> int:
    """A signed number in decimal."""
    return int(_call("gpmf_put_signed", *_out(out, at), _signed(n, 64)))


# ---- what is read out of a line


def pieces(text: Bytes, b: int) -> int:
    """How many pieces a text falls into, each ended by a byte or by the end."""
    return int(_call("gpmf_pieces", _bytes(text), _unsigned(b, 8)))


def decimal_number(text: Bytes) -> Optional[int]:
    """The number in decimal digits; None where there is none of 64 bits."""
    return _whole_or_none(_call("gpmf_decimal_number", _bytes(text)))


def hex_number(text: Bytes) -> Optional[int]:
    """The number in small hex digits; None where there is none of 64 bits."""
    return _whole_or_none(_call("gpmf_hex_number", _bytes(text)))


def unhex(text: Bytes, out: Union[bytearray, memoryview]) -> Union[int, More, None]:
    """How many bytes the small hex digits stand for, which are laid at the front of a buffer; None where it is not hex, More where they have no room."""
    answer = _call("gpmf_unhex", _bytes(text), _bytes(out, written=True))
    return More(answer.place) if answer.kind == MORE else _whole_or_none(answer)
