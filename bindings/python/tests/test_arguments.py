"""No argument reaches the library that it cannot take: wrong ones raise before it is called, and the largest that it takes are answered."""
import array
import ctypes
import inspect
import io
import types
import unittest

import gpmf
from samples import item, listed, packet_text, raw
from test_header import public_functions

PAYLOAD = raw("packet")
READING = gpmf.rows(PAYLOAD)
ROW = READING.lookup("MWET", "MWET")
FILE = raw("take")


def numbers():
    return array.array("I", bytes(4 * 8 * 64))


def fitting():
    """Of each public function, arguments that it takes, in new memory each time."""
    rows, out = numbers(), bytearray(4096)
    group = (PAYLOAD, READING.numbers, len(READING), *gpmf.group_numbers("CORI"))
    return {
        "aligned_data_len": (ROW,), "are_utf8": (b"abcd", 2), "big_endian": (b"abc",), "columns": (PAYLOAD, ROW.place, 0, gpmf.NO_TYPE), "data_len": (ROW,),
        "klv_at": (PAYLOAD, ROW.place, gpmf.NO_TYPE), "bytes_at": (PAYLOAD, ROW.place, gpmf.NO_TYPE), "text_at": (PAYLOAD, READING.lookup("MWET", "STNM").place, 0, gpmf.NO_TYPE),
        "decimal_number": (b"12",), "double_bits": (1.5,), "element": (PAYLOAD, ROW.place, 0, 0, gpmf.NO_TYPE), "element_at": (PAYLOAD, 0, "L"),
        "elements": (PAYLOAD, ROW.place, gpmf.NO_TYPE), "elements_at": (PAYLOAD, ROW.place, array.array("Q", bytes(8 * 64)), gpmf.NO_TYPE), "exact_at": (PAYLOAD, 0), "find_devc": (FILE, 0), "get_avg_sample_duration": ([1], [False], [1], [1.0], [False]),
        "get_last_klv": (PAYLOAD,), "group_from_key": ("MWET",), "group_numbers": ("MWET",), "hex_number": (b"ff",), "is_one_number": (ROW, "B"), "is_one_text": (ROW,),
        "is_type_text": (ROW,), "is_utf8": (b"abc",), "key_number": ("MWET",), "key_text": (0,), "last_item": (PAYLOAD, 0), "latin1_len": (b"abc",), "listing": (PAYLOAD, 60),
        "lookup": (READING.numbers, len(READING), 1, 2, 3, 4), "matrix_to_orientation": ([[1, 0, 0], [0, 1, 0], [0, 0, 1]],), "mtrx_to_orientation": ([1, 0, 0, 0, 1, 0, 0, 0, 1],),
        "negated": (5,), "next_metadata": (FILE, 0, False, rows), "next_metadata_in": (FILE, 0, True, False, rows), "open_take": (io.BytesIO(FILE), False, 60, 100),
        "orientation_of_group": group, "orientations_of": (b"XYZ", b"XYZ"), "orientations_to_matrix": ("XYZ", "XYZ"), "packets": (FILE, False, 60), "packets_next": (FILE, 0),
        "packets_next_in": (FILE, 0, True), "parse_header": (PAYLOAD, 0), "parse_metadata": (PAYLOAD, False, rows), "parse_utcdate": (b"240229235958.400",), "pieces": (b"a b", 32),
        "put": (out, 0, 1), "put_answer": (out, 0, (1, 2)), "put_bytes": (out, 0, b"abc"), "put_decimal": (out, 0, 1), "put_hex": (out, 0, 1, 2), "put_listing": (PAYLOAD, rows, out, 0),
        "put_long_packet": (1, 2, 3, False, out, 0), "put_packet": (PAYLOAD, 1, 2, False, rows, out, 0), "put_row": (rows, 0, gpmf.RowNumbers(*range(8))),
        "put_rows": (out, 0, READING.numbers, 5), "put_signed": (out, 0, -1), "put_totals": (out, 0, 3, 2, 1), "q15_16": (1, 2), "q31_32": (1, 2), "q31_32_exact": (1, 2),
        "resolve_custom_type": (b"Lffff",), "room": (64,), "row_at": (READING.numbers, 0), "rows": (PAYLOAD, False, 60), "scaled": (1, 2, 3, 4, 1.5), "scaled_quaternion": (*group, 0),
        "shape": (PAYLOAD, ROW.place, gpmf.NO_TYPE), "single_bits": (1.5,), "stamp_us": group, "tag_id": ("MWET",), "tagged_item": (*group, 1, 0), "unhex": (b"0a", out),
        "utc": (0,), "utf8_len": (b"abc",), "value": (PAYLOAD, ROW.place, gpmf.NO_TYPE), "width": ("L",),
    }


# What no call takes, by the hint of the argument that it is given for.
GAPS = memoryview(bytearray(64))[::2]
WRONG_OUT = ("abc", 1, None, [1], b"bytes", memoryview(b"bytes"), array.array("I", [1]), GAPS)
WRONG = {
    "int": (-(2**63) - 1, 2**64, 2**200, 1.5, "1", b"1", None, [1]),
    "bool": (0, 1, None, "x", 1.0, []),
    "float": ("1", None, b"1", 10**400, [1.0]),
    "str": (1, None, b"MWET", "", "MWE\xfftx", "\u4e2d\u4e2d\u4e2d\u4e2d", ["M"]),
    "Bytes": ("abc", 1, None, [1], array.array("I", [1]), GAPS),
    "Numbers": (b"12345678", bytearray(64), [1] * 8, None, 1, "abc", array.array("i", [1] * 8), array.array("H", [1] * 8), array.array("d", [1.0] * 8), array.array("Q", [1] * 8)),
    "LongNumbers": (b"12345678", bytearray(64), [1] * 8, None, 1, "abc", array.array("q", [1] * 8), array.array("I", [1] * 8), array.array("d", [1.0] * 8)),
    "Union[bytearray, memoryview]": WRONG_OUT,
    "Optional[int]": (-1, 2**64, 1.5, "1", [1]),
    "Optional[str]": (1, b"MWET", "", "MWE", "MWET!"),
    "ItemOrPlace": (-1, 2**64, 1.5, "MWET", None, (1, 2), ROW._replace(place=-1), ROW._replace(place="1"), gpmf.Item("ABCD", "B", 1, 1, 2**64)),
    "Union[Item, Row]": (1, None, ("ABCD", "B", 1, 1), *(ROW._replace(**wrong) for wrong in ({"key": "ABC"}, {"type": "BB"}, {"type": 66}, {"size": 256}, {"repeat": 65536}, {"size": -1}))),
    "RowNumbers": (None, (1, 2), (0,) * 9, (-1,) * 8, (2**32,) * 8, ("1",) * 8, (1.5,) * 8),
    "Union[Refusal, Tuple[int, int]]": (None, (1,), (1, 2, 3), (-1, 0), (0, 2**64), ("1", 2), gpmf.Refusal(-1, 0), gpmf.Refusal(2**32, 0), gpmf.Refusal(1, 2**64)),
    "Sequence[int]": (None, 1, "1", [-1], [2**64], [1.5], ["1"]),
    "Sequence[bool]": (None, 1, "1", [1], [None]),
    "Sequence[float]": (None, 1, ["1"], [None], [10**400]),
    "Sequence[Sequence[float]]": (None, 1, [1, 2, 3], [[1, 2, 3]] * 2, [[1, 2, 3]] * 4, [[1, 2]] * 3, [["1"] * 3] * 3, [[1e39] * 3] * 3),
    "Union[str, os.PathLike[str], BinaryIO]": (None, 1, b"take.raw", [1]),
}
LARGEST = (0, 2**64 - 1, 2**63 - 1, 2**32 - 1, 2**31 - 1, 65535, 32767, 255)
# How many bits a number from 0 on may have, where they are not 64: by the argument's name, or by the function's and its own.
BITS = {
    "group_kind": 32, "group_key": 32, "tag": 32, "key": 32, "key_text.number": 32, "b": 8, "put_signed.n": 63, "negated.x": 15,
    "scaled.w": 15, "scaled.x": 15, "scaled.y": 15, "scaled.z": 15, "q15_16.high": 15, "q15_16.low": 16,
    "q31_32.high": 31, "q31_32.low": 32, "q31_32_exact.high": 31, "q31_32_exact.low": 32,
}
# Arguments with a range of their own, which are tested by themselves.
RANGED = ("room", "piece", "milliseconds")


def replaced(name):
    """Of a function, each argument with its hint and a way to call with another in its place."""
    for at, parameter in enumerate(inspect.signature(getattr(gpmf, name)).parameters.values()):
        def call(wrong, at=at):
            words = list(fitting()[name])
            words[at] = wrong
            return getattr(gpmf, name)(*words)

        yield parameter, call


class Arguments(unittest.TestCase):
    def test_every_public_function_is_tried(self):
        self.assertEqual(set(fitting()), set(public_functions()))
        for name, words in fitting().items():
            with self.subTest(name):
                self.assertEqual(len(words), len(inspect.signature(getattr(gpmf, name)).parameters))
                getattr(gpmf, name)(*words)

    def test_wrong_ones_raise(self):
        for name in fitting():
            for parameter, call in replaced(name):
                for wrong in WRONG[parameter.annotation]:
                    with self.subTest(name, argument=parameter.name, wrong=repr(wrong)[:60]):
                        self.assertRaises((ValueError, TypeError, OverflowError), call, wrong)

    def test_the_largest_ones_are_answered_and_no_larger(self):
        for name in fitting():
            for parameter, call in replaced(name):
                if parameter.annotation in ("int", "Optional[int]", "ItemOrPlace") and parameter.name not in RANGED:
                    bits = BITS.get(f"{name}.{parameter.name}", BITS.get(parameter.name, 64))
                    for number in LARGEST:
                        with self.subTest(name, argument=parameter.name, number=number):
                            self.assertEqual(answered(call, number), number < 2**bits)

    def test_a_number_below_0_is_no_place(self):
        for call in gpmf.find_devc, gpmf.parse_header, gpmf.last_item, gpmf.value, gpmf.packets_next:
            self.assertRaises(ValueError, call, PAYLOAD, -1)

    def test_singles_are_rounded_and_no_more(self):
        self.assertEqual(gpmf.single_bits(3.4028235e38), 0x7F7FFFFF)
        self.assertRaises(OverflowError, gpmf.single_bits, 3.5e38)
        self.assertRaises(OverflowError, gpmf.mtrx_to_orientation, [-3.5e38])

    def test_memory_that_is_not_whole(self):
        gone = memoryview(bytearray(64))
        gone.release()
        self.assertRaises(ValueError, gpmf.rows, gone)
        self.assertRaises(ValueError, gpmf.row_at, memoryview(bytearray(65))[1:].cast("I"), 0)
        self.assertRaises(ValueError, gpmf.parse_metadata, b"", False, memoryview(numbers())[::2])
        self.assertRaises(TypeError, gpmf.parse_metadata, b"", False, memoryview(bytes(64)).cast("I"))
        self.assertEqual(gpmf.parse_metadata(b"", False, memoryview(bytearray(64)).cast("I")), (0, 0))

    def test_a_view_of_two_dimensions_is_its_bytes(self):
        tried = 0
        for name, words in fitting().items():
            for parameter, call in replaced(name):
                if parameter.annotation == "Bytes":
                    memory = words[list(inspect.signature(getattr(gpmf, name)).parameters).index(parameter.name)]
                    tried += 1
                    with self.subTest(name, argument=parameter.name):
                        self.assertEqual(told(call(memoryview(memory).cast("b", (1, len(memory))))), told(call(memory)))
        self.assertGreater(tried, 30)
        wide = memoryview(item("STNM", "c", 1, 8, b"abcdefgh")).cast("B", (4, 4))
        self.assertEqual((gpmf.value(wide, 0), gpmf.text_at(wide, 0, 0), gpmf.rows(wide).value(gpmf.rows(wide)[0])), ("abcdefgh", b"abcdefgh", "abcdefgh"))
        out = bytearray(8)
        self.assertEqual((gpmf.put_bytes(memoryview(out).cast("B", (2, 4)), 1, b"abcdef"), out), (7, b"\0abcdef\0"))
        self.assertRaises(ValueError, gpmf.rows, memoryview(bytes(32)).cast("B", (8, 4))[::2])
        self.assertIsNone(gpmf.find_devc((ctypes.c_ubyte * 4 * 0)()))  # no bytes, in two dimensions

    def test_what_is_written_overlaps_nothing(self):
        rows, out = numbers(), bytearray(256)
        plain = memoryview(rows).cast("B")
        for call, words in (
            (gpmf.parse_metadata, (plain, False, rows)), (gpmf.parse_metadata, (plain[-1:], False, rows)), (gpmf.next_metadata, (plain, 0, False, rows)),
            (gpmf.next_metadata_in, (plain, 0, True, False, rows)), (gpmf.put_listing, (b"", rows, plain, 0)), (gpmf.put_listing, (out, rows, out, 0)),
            (gpmf.put_rows, (plain, 0, rows, 1)), (gpmf.put_packet, (b"", 1, 2, False, rows, plain, 0)), (gpmf.put_packet, (out, 1, 2, False, rows, out, 0)),
            (gpmf.put_bytes, (out, 0, memoryview(out)[255:])), (gpmf.unhex, (out, out)),
        ):
            with self.subTest(call.__name__):
                before = bytes(plain), bytes(out)
                self.assertRaisesRegex(ValueError, "overlaps", call, *words)
                self.assertEqual((bytes(plain), bytes(out)), before)

    def test_what_lies_side_by_side_may_be_lent(self):
        out = bytearray(b"....abcd")
        self.assertEqual(gpmf.put_bytes(memoryview(out)[:4], 0, memoryview(out)[4:]), 4)
        self.assertEqual(out, b"abcdabcd")
        self.assertEqual(gpmf.put_bytes(out, 8, memoryview(out)[3:3]), 8)
        self.assertEqual(gpmf.orientations_of(out[:3], out[:3]), ("abc", "abc"))

    def test_rows_that_no_reading_made(self):
        lent = array.array("I", [2**32 - 1] * 64)
        for call in gpmf.stamp_us, gpmf.orientation_of_group, lambda *words: gpmf.scaled_quaternion(*words, 0):
            self.assertRaises(gpmf.Refusal, call, PAYLOAD, lent, 9, 2**32 - 1, 2**32 - 1)
            self.assertIsNone(call(PAYLOAD, lent, 8, 1, 1))
        row = gpmf.Reading(PAYLOAD, lent, 8, 0)[7]
        self.assertEqual((row.place, row.group, row.key, row.type, row.size, row.repeat), (2**32 - 1, "xffffffff", "xffffffff", "\xff", 255, 65535))
        self.assertRaises(gpmf.Refusal, gpmf.value, PAYLOAD, row)

    def test_rows_without_room_are_refused_as_the_library_does(self):
        lent = numbers()
        short = gpmf.Reading(PAYLOAD, lent, 64, 0)
        self.assertEqual(len(list(short)), 64)
        del lent[-1:]
        for call in lambda: list(short), lambda: short[63], lambda: short[:], lambda: short.lookup("MWET", "MWET"), lambda: list(gpmf.Reading(b"", lent, 64, 0)):
            with self.assertRaises(gpmf.Refusal) as caught:
                call()
            self.assertEqual(caught.exception.args, (5, 0))
        self.assertRaises(IndexError, short.__getitem__, 64)

    def test_a_value_is_asked_of_any_bytes(self):
        for at in range(0, 400):
            for type_place in None, at, at + 4:
                try:
                    has = gpmf.shape(PAYLOAD, at, type_place)
                except gpmf.Refusal as why:
                    self.assertIn(why.number, (2, 6, 7, 8, 12))
                    with self.assertRaises(gpmf.Refusal) as caught:
                        gpmf.value(PAYLOAD, at, type_place)
                    self.assertEqual(caught.exception.args, why.args)
                else:
                    self.assertEqual(len(gpmf.elements(PAYLOAD, at, type_place)), has.rows)

    def test_an_item_is_asked_of_any_bytes(self):
        self.assertEqual(gpmf.value(item("ABCD", "B", 1, 1, b"\7"), gpmf.Item("WXYZ", "f", 99, 99, 0)), 7)  # its bytes tell what it is


def told(answer):
    """An answer in words that can be compared."""
    if isinstance(answer, gpmf.Reading):
        return listed(answer)
    if isinstance(answer, types.GeneratorType):
        return [(packet_text(packet), bytes(packet.payload), told(packet.front())) for packet in answer]
    return answer


def answered(call, number):
    """Whether a call answers, or is refused: that is an answer too."""
    try:
        call(number)
    except gpmf.Refusal:
        return True
    except (ValueError, OverflowError):
        return False
    return True


if __name__ == "__main__":
    unittest.main()
