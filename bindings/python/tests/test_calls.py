"""Every call, on cases whose answers follow from the words of gpmf.h and docs/PROMISES.md."""
import array
import datetime
import math
import struct
import time
import tracemalloc
import unittest
import unittest.mock
from fractions import Fraction

import gpmf
from samples import item, raw

CASE_12 = bytes.fromhex("5354524d000100145343414c73020001000100004759524f73060000")  # a stream of a SCAL and of a GYRO without readings
UTC = datetime.timezone.utc


def bits(number, letter):
    """An element as one number: an f32 of the letters f and q, and of the structure here."""
    if isinstance(number, int):
        return number % 2**64
    return (gpmf.single_bits if letter in "fq?" else gpmf.double_bits)(number)


class Refusing(unittest.TestCase):
    def refused(self, number, place, call, *words, **named):
        with self.assertRaises(gpmf.Refusal) as caught:
            call(*words, **named)
        self.assertEqual((caught.exception.number, caught.exception.place), (number, place))


class Rows(Refusing):
    def setUp(self):
        self.lent = array.array("I", bytes(4 * 8 * 3))

    def test_parse_metadata(self):
        self.assertEqual(gpmf.parse_metadata(CASE_12, False, self.lent), (1, 3))
        self.assertEqual(gpmf.parse_metadata(CASE_12, True, self.lent[:]), (1, 3))
        self.assertEqual(list(self.lent[:8]), [8, 1, gpmf.key_number("GYRO"), 4, gpmf.key_number("SCAL"), ord("s") << 24 | 2 << 16 | 1, gpmf.NO_TYPE, 1])
        self.refused(5, 0, gpmf.parse_metadata, CASE_12, False, self.lent[:7])
        self.refused(1, 0, gpmf.rows, bytes(gpmf.MOST_BYTES + 1))
        self.refused(3, 0, gpmf.rows, item("STRM", "\0", 1, 4, b"\1\2\3\4"))
        deep = item("ABCD", "B", 1, 1, b"\1")
        for _ in range(17):
            deep = item("STRM", "\0", 1, len(deep), deep)
        self.refused(4, 0, gpmf.rows, deep)
        self.assertEqual(gpmf.rows(deep[8:])[0].depth, 16)

    def test_refusals_wait_for_the_chain(self):
        """A refusal inside waits for the chains of all containers around it; where the group is forced there is no chain."""
        row = item("ABCD", "B", 1, 1, b"\1")
        deep = row
        for _ in range(17):
            deep = item("STRM", "\0", 1, len(deep), deep)
        for inside, number in ((deep, 4), (row * 4, 5)):
            around = item("DEVC", "\0", 1, len(inside) + 3, inside + b"\0\0\0")
            self.refused(3, 0, gpmf.parse_metadata, around, False, self.lent)
            self.refused(number, 0, gpmf.parse_metadata, around, True, self.lent)

    def test_rows_in_lent_numbers(self):
        self.assertEqual([gpmf.room(numbers) for numbers in (0, 7, 8, 64, 10**9)], [0, 0, 1, 8, 4096])
        row = gpmf.RowNumbers(1, 2, 3, 4, 5, 6, 7, 2**32 - 1)
        self.assertEqual([gpmf.put_row(self.lent, n, row) for n in (1, 3, 2**64 - 1)], [True, False, False])
        self.assertEqual(list(self.lent), [0] * 8 + list(row) + [0] * 8)
        self.assertEqual([gpmf.row_at(self.lent, n) for n in (0, 1, 3)], [(0,) * 8, row, None])
        self.assertIsInstance(gpmf.row_at(self.lent, 1), gpmf.RowNumbers)

    def test_lookup(self):
        for n, (kind, group, tag, key) in enumerate([(1, 7, 0, 9), (1, 7, 4, 9), (1, 7, 4, 8)]):
            gpmf.put_row(self.lent, n, gpmf.RowNumbers(0, kind, group, tag, key, 0, 0, 0))
        asked = [(3, 1, 7, 4, 0), (2, 1, 7, 4, 0), (3, 1, 7, 0, 9), (3, 1, 7, 0, 8), (3, 0, 7, 4, 0), (0, 1, 7, 4, 0)]
        self.assertEqual([gpmf.lookup(self.lent, *each) for each in asked], [2, 1, 0, None, None, None])
        self.refused(5, 0, gpmf.lookup, self.lent, 4, 1, 7, 4, 0)

    def test_last_items(self):
        two = item("ABCD", "B", 1, 3, b"abc") + item("EFGH", "c", 1, 5, b"texts")
        self.assertEqual(gpmf.get_last_klv(two), ("EFGH", "c", 1, 5, 12))
        self.assertEqual(gpmf.last_item(two, 12), ("EFGH", "c", 1, 5, 12))
        self.assertEqual((gpmf.get_last_klv(b""), gpmf.last_item(two, 99)), (None, None))
        self.refused(3, 28, gpmf.get_last_klv, two + b"abc")
        self.refused(2, 12, gpmf.last_item, two[:20], 0)
        self.refused(1, 0, gpmf.get_last_klv, bytes(gpmf.MOST_BYTES + 1))

    def test_what_rows_lead_to(self):
        reading = gpmf.rows(raw("packet"))
        for group, key, tag in ("MWET", "MWET", 1), ("GPS5", "GPSP", 0):
            numbers = gpmf.group_numbers(group)
            found = gpmf.tagged_item(reading.payload, reading.numbers, len(reading), *numbers, tag, gpmf.key_number(key))
            row = reading.lookup(group, key)
            self.assertEqual(found, (row.key, row.type, row.size, row.repeat, row.place))
            self.assertEqual(gpmf.tagged_item(reading.payload, reading.numbers, len(reading), *numbers, 0, gpmf.key_number(key)), None if tag else found)
        self.assertIsNone(gpmf.tagged_item(reading.payload, reading.numbers, 0, 1, 1, 1, 1))
        for call, more in (gpmf.tagged_item, (5, 0)), (gpmf.stamp_us, ()), (gpmf.scaled_quaternion, (0,)), (gpmf.orientation_of_group, ()):
            self.refused(5, 0, call, reading.payload, reading.numbers, len(reading) + 1, *gpmf.group_numbers("CORI"), *more)
            self.refused(1, 0, call, bytes(gpmf.MOST_BYTES + 1), reading.numbers, 1, 0, 0, *more)
        stamp = reading.lookup("CORI", "STMP")
        self.refused(2, stamp.place, gpmf.stamp_us, reading.payload[: stamp.place + 9], reading.numbers, len(reading), *gpmf.group_numbers("CORI"))
        self.refused(13, reading.lookup("CORI", "CORI").place, reading.quaternion, "CORI", 3)


class Values(Refusing):
    def test_each_kind(self):
        text = "na\xefve".encode("latin-1")
        cases = [
            (gpmf.Kind.SINGLE, item("ABCD", "L", 4, 1, b"\xff\xff\xff\xfe"), 2**32 - 2),
            (gpmf.Kind.SINGLE, item("ABCD", "j", 8, 1, b"\xff" * 8), -1),
            (gpmf.Kind.SINGLE, item("ABCD", "q", 4, 1, b"\xff\xfe\x80\0"), -1.5),
            (gpmf.Kind.LIST, item("ABCD", "b", 1, 3, b"\xff\0\1"), [-1, 0, 1]),
            (gpmf.Kind.VECTOR, item("ABCD", "f", 12, 2, struct.pack(">6f", *range(6))), [[0, 1, 2], [3, 4, 5]]),
            (gpmf.Kind.TIMED_VECTOR, item("ABCD", "d", 32, 1, struct.pack(">4d", 0.1, 2, 3, 4)), [[0.1, 2, 3, 4]]),
            (gpmf.Kind.NESTED, item("ABCD", "S", 4, 2, struct.pack(">4H", 1, 2, 3, 65535)), [[1, 2], [3, 65535]]),
            (gpmf.Kind.NESTED, item("ABCD", "l", 3, 2, bytes(6)), [[], []]),
            (gpmf.Kind.TEXT, item("ABCD", "c", 1, 7, text + b"\0\0"), "na\xefve"),
            (gpmf.Kind.TEXT, item("ABCD", "c", 1, 5, b"a\0b\0\0"), "a\0b"),
            (gpmf.Kind.TEXT, item("ABCD", "F", 4, 1, b"DVID"), "DVID"),
            (gpmf.Kind.TEXT, item("ABCD", "c", 1, 2, b"\0\0"), ""),
            (gpmf.Kind.TEXTS, item("ABCD", "c", 3, 3, "\xe9x".encode() + b"ab\0" + b"\0ab"), ["\xe9x", "ab", ""]),
            (gpmf.Kind.IDENTIFIER, item("ABCD", "G", 16, 1, struct.pack(">4L", 1, 2, 3, 4)), [1, 2, 3, 4]),
            (gpmf.Kind.DATE_TIME, item("ABCD", "U", 16, 1, b"991231235959.999"), datetime.datetime(2099, 12, 31, 23, 59, 59, 999_000, tzinfo=UTC)),
            (gpmf.Kind.QUATERNIONS, item("CORI", "s", 8, 2, struct.pack(">8h", *range(-4, 4))), [[-4, -3, -2, -1], [0, 1, 2, 3]]),
            (gpmf.Kind.UNKNOWN, item("ABCD", "?", 4, 1, b"\0\0\0\1"), None),
            (gpmf.Kind.UNKNOWN, item("ABCD", "w", 4, 1, b"\0\0\0\1"), None),
        ]
        for kind, payload, expected in cases:
            with self.subTest(kind.name, payload=payload):
                self.assertEqual((gpmf.shape(payload, 0).kind, gpmf.value(payload, 0)), (kind, expected))
                self.assertEqual(gpmf.elements(payload, 0), [[gpmf.element(payload, 0, n, c) for c in range(gpmf.columns(payload, 0, n))] for n in range(gpmf.shape(payload, 0).rows)])
        self.assertEqual({kind for kind, _, _ in cases} | {gpmf.Kind.STRUCTURES}, set(gpmf.Kind))

    def test_all_elements_are_the_single_ones(self):
        structures = item("TYPE", "c", 1, 3, b"bLf") + item("ABCD", "?", 9, 2, b"\xff\0\0\0\7\x3f\xc0\0\0" * 2)
        cases = [(letter, item("ABCD", letter, 8, 2, b"\xff" * 8 + b"\x12\x34\x56\x78\x9a\xbc\xde\xf0"), 0, None) for letter in "bBsSlLfqdjJQ"]
        cases += [("c", item("ABCD", "c", 3, 2, b"degm\0\0"), 0, None), ("U", item("ABCD", "U", 16, 1, b"240229235958.400"), 0, None), ("?", structures, 12, 0)]
        for letter, payload, place, type_place in cases:
            with self.subTest(letter):
                columns = [gpmf.columns(payload, place, n, type_place) for n in range(gpmf.shape(payload, place, type_place).rows)]
                rows = [[gpmf.element(payload, place, n, column, type_place) for column in range(count)] for n, count in enumerate(columns)]
                self.assertEqual(repr(gpmf.elements(payload, place, type_place)), repr(rows))  # a NaN is shown as one
                single = [bits(each, letter) for row in rows for each in row]
                numbers = array.array("Q", [9] * (len(single) + 1))
                self.assertEqual(gpmf.elements_at(payload, place, numbers, type_place), len(single))
                self.assertEqual(numbers.tolist(), [*single, 9])
                short = array.array("Q", [9] * (len(single) - 1))
                self.refused(5, place, gpmf.elements_at, payload, place, short, type_place)
                self.assertEqual(short.tolist(), [9] * (len(single) - 1))
        kept = array.array("Q", [9] * 4)
        self.refused(7, 0, gpmf.elements_at, item("ABCD", "c", 2, 2, b"ab\xffc"), 0, kept)
        self.refused(1, 0, gpmf.elements_at, bytes(gpmf.MOST_BYTES + 1), 0, kept)
        self.refused(12, 1, gpmf.elements_at, bytes(8), 1, kept)
        self.assertEqual(kept.tolist(), [9] * 4)

    def test_structures_by_their_type(self):
        payload = item("TYPE", "c", 1, 5, b"b[2]L") + item("ABCD", "?", 6, 2, b"\xff\1\0\0\0\7\2\3\0\0\0\x08")
        self.assertEqual(gpmf.value(payload, 16, 0), [[-1, 1, 7], [2, 3, 8]])
        self.assertEqual(gpmf.value(payload, gpmf.Item("ABCD", "?", 6, 2, 16), 0), [[-1, 1, 7], [2, 3, 8]])
        (row,) = gpmf.rows(payload)
        self.assertEqual((row.type_place, gpmf.value(payload, row)), (0, [[-1, 1, 7], [2, 3, 8]]))
        self.refused(12, 16, gpmf.value, payload, 16, 16)
        every = item("TYPE", "c", 1, 16, b"bBsSlLfqdjJQxF\0\0") + item("ABCD", "?", 54, 3, b"\xff" * 54 + bytes(range(200, 92, -1)))
        rows = [[gpmf.element(every, 24, n, column, 0) for column in range(12)] for n in range(3)]
        self.assertEqual((repr(gpmf.elements(every, 24, 0)), repr(gpmf.value(every, 24, 0))), (repr(rows), repr(rows)))
        self.assertEqual(list(map(type, rows[1])), [int] * 6 + [float] * 3 + [int] * 2 + [float])
        nothing = item("TYPE", "c", 1, 1, b"x") + item("ABCD", "?", 1, 2, b"ab")
        self.assertEqual(gpmf.value(nothing, 12, 0), [[], []])

    def test_a_long_type_text_is_not_written_out_for_each_element(self):
        """Such a text for each element would take minutes: 65,535 times half a million steps, twice."""
        text, data = b"b" + b"]" * (16 * 32768 - 1), bytes(65535)
        payload = item("TYPE", "F", 16, 32768, text) + item("ABCD", "?", 1, 65535, data)
        began = time.process_time()
        self.assertEqual(gpmf.value(payload, len(text) + 8, 0), [[0]] * 65535)
        (row,) = gpmf.rows(payload)
        self.assertEqual(gpmf.elements(payload, row), [[0]] * 65535)
        self.assertLess(time.process_time() - began, 10)

    def test_an_item_as_a_view_has_it(self):
        payload = item("UNIT", "c", 3, 2, b"degm\0\0") + item("STNM", "c", 1, 4, b"Wet\0") + item("ABCD", "B", 1, 3, b"123")
        self.assertEqual(gpmf.klv_at(payload, 16), gpmf.Item("STNM", "c", 1, 4, 16))
        self.assertEqual([bytes(gpmf.bytes_at(payload, at)) for at in (0, 16, 28)], [b"degm\0\0", b"Wet\0", b"123"])
        self.assertEqual([bytes(gpmf.text_at(payload, at, row)) for at, row in ((0, 0), (0, 1), (16, 0))], [b"deg", b"m", b"Wet"])
        self.assertEqual([bytes(gpmf.text_at(item("ABCD", "c", size, repeat, b"a\0b\0d\0"), 0, 0)) for size, repeat in ((6, 1), (3, 2))], [b"a\0b\0d", b"a"])
        self.refused(13, 0, gpmf.text_at, payload, 0, 2)
        self.refused(13, 16, gpmf.text_at, payload, 16, 1)
        self.refused(13, 28, gpmf.text_at, payload, 28, 0)
        self.refused(7, 0, gpmf.text_at, item("UNIT", "c", 2, 2, b"ab\xffc"), 0, 0)
        for call, more in (gpmf.klv_at, ()), (gpmf.bytes_at, ()), (gpmf.text_at, (0,)):
            self.refused(1, 0, call, bytes(gpmf.MOST_BYTES + 1), 0, *more)
            self.refused(2, 28, call, payload[:-2], 28, *more)
            self.refused(12, 40, call, payload, 40, *more)

    def test_refusals(self):
        for call, more in (gpmf.shape, ()), (gpmf.value, ()), (gpmf.elements, ()), (gpmf.columns, (0,)), (gpmf.element, (0, 0)):
            self.refused(1, 0, call, bytes(gpmf.MOST_BYTES + 1), 0, *more)
            self.refused(12, 1, call, bytes(8), 1, *more)
            self.refused(12, 2**64 - 1, call, bytes(8), 2**64 - 1, *more)
            self.refused(2, 0, call, item("ABCD", "B", 1, 9, b"a"), 0, *more)
            self.refused(6, 0, call, item("ABCD", "U", 8, 1, bytes(8)), 0, *more)
            self.refused(7, 0, call, item("ABCD", "c", 2, 2, b"\xff\xff\xff\xff"), 0, *more)
        self.refused(13, 0, gpmf.element, item("ABCD", "B", 1, 2, b"ab"), 0, 2, 0)
        self.refused(13, 0, gpmf.element, item("ABCD", "B", 1, 2, b"ab"), 0, 0, 1)
        self.refused(13, 0, gpmf.columns, item("ABCD", "B", 1, 2, b"ab"), 0, 2)
        long_type = item("TYPE", "c", 1, 6, b"f[300]") + item("ABCD", "?", 1, 1, b"a")
        self.refused(8, 16, gpmf.value, long_type, 16, 0)

    def test_long_texts_are_read_once(self):
        size, repeat = 16, 65000
        payload = item("ABCD", "c", size, repeat, b"text".ljust(size, b"\0") * repeat)
        self.assertEqual(gpmf.value(payload, 0), ["text"] * repeat)
        payload = item("ABCD", "c", 250, 1, b"x" * 100 + bytes(150))
        self.assertEqual(gpmf.value(payload, 0), "x" * 100)

    def test_dates(self):
        self.assertEqual(gpmf.utc(0), datetime.datetime(1970, 1, 1, tzinfo=UTC))
        self.assertEqual(gpmf.utc(1709251198400).isoformat(), "2024-02-29T23:59:58.400000+00:00")
        self.assertEqual(gpmf.parse_utcdate(b"240229235958.400"), 1709251198400)
        for impossible in b"230229120000.000", b"240229240000.000":
            self.assertEqual(gpmf.value(item("ABCD", "U", 16, 1, impossible), 0), gpmf.utc(0))
        self.refused(6, 0, gpmf.parse_utcdate, b"240229235958.40")
        self.refused(7, 0, gpmf.parse_utcdate, b"24\xff229235958.400")


class Items(Refusing):
    def test_headers(self):
        payload = item("ABCD", "S", 6, 3, bytes(18))
        found = gpmf.parse_header(payload, 0)
        self.assertEqual(found, gpmf.Item("ABCD", "S", 6, 3, 0))
        self.assertEqual((gpmf.data_len(found), gpmf.aligned_data_len(found)), (18, 20))
        self.refused(12, len(payload) - 7, gpmf.parse_header, payload, len(payload) - 7)
        self.refused(2, 0, gpmf.parse_header, payload[:25], 0)
        self.assertEqual(gpmf.parse_header(payload[:26], 0), found)

    def test_what_a_header_says(self):
        texts = [gpmf.Item("TYPE", "c", 1, 9), gpmf.Item("TYPE", "F", 4, 2), gpmf.Item("ABCD", "c", 9, 1), gpmf.Item("TYPE", "c", 2, 2)]
        self.assertEqual([gpmf.is_one_text(each) for each in texts], [True, True, True, False])
        self.assertEqual([gpmf.is_type_text(each) for each in texts], [True, True, False, False])
        self.assertEqual([gpmf.is_one_number(gpmf.Item("ABCD", "L", size, repeat), "L") for size, repeat in ((4, 1), (7, 1), (8, 1), (4, 2))], [True, True, False, False])
        self.assertFalse(gpmf.is_one_number(gpmf.Item("ABCD", "L", 4, 1), "l"))

    def test_keys(self):
        self.assertEqual((gpmf.key_number("MWET"), gpmf.key_text(0x4D574554)), (0x4D574554, "MWET"))
        self.assertEqual((gpmf.key_text(0), gpmf.key_text(0x47505320), gpmf.key_text(2**32 - 1)), ("x00000000", "x47505320", "xffffffff"))
        for number in 0, 1, 0x20212223, 0x21222324, 0x7E7E7E7E, 0x7F7E7E7E, 2**32 - 1:
            self.assertEqual(gpmf.key_number(gpmf.key_text(number)), number)
        self.assertEqual((gpmf.group_numbers(None), gpmf.group_numbers("MWET")), ((0, 0), (1, 0x4D574554)))
        self.assertEqual([gpmf.tag_id(key) for key in ("MWET", "SIUN", "ORIO", "GPSP", "x00000000")], [1, 2, 10, 0, 0])
        self.assertEqual([gpmf.group_from_key(key) for key in ("GYRO", "ISOE", "FACE")], [(1, "GYRO"), (16, "ISOE"), (0, "FACE")])

    def test_a_key_that_cannot_be_seen(self):
        payload = item("AB D", "B", 1, 1, b"a")
        stream = item("STRM", "\0", 1, len(payload), payload)
        (row,) = gpmf.rows(stream)
        self.assertEqual((row.key, row.group), ("x41422044", "x41422044"))
        self.assertEqual(gpmf.rows(stream).lookup("x41422044", "x41422044"), row)
        self.assertEqual(gpmf.listing(stream).split()[5:7], ["x41422044"] * 2)

    def test_packets(self):
        file = b"..DEVC1234abcDEVC1234DEVC12345"
        self.assertEqual([gpmf.find_devc(file, at) for at in (0, 2, 3, 22, 2**64 - 1)], [2, 2, 13, None, None])
        self.assertEqual(gpmf.find_devc(file), 2)
        self.assertEqual(gpmf.packets_next(file, 0), gpmf.Cut(10, 13, 13))
        self.assertEqual(gpmf.packets_next(file, 13), gpmf.Cut(21, 21, 21))
        self.assertEqual(gpmf.packets_next(file, 21), gpmf.Cut(29, 30, 30))
        self.assertIsNone(gpmf.packets_next(file, 30))
        self.assertEqual(gpmf.packets_next_in(file[:16], 0, True), gpmf.More(2))
        self.assertEqual(gpmf.packets_next_in(file[:17], 0, True), gpmf.Cut(10, 13, 13))
        self.assertEqual(gpmf.packets_next_in(file[:16], 0, False), gpmf.Cut(10, 16, 16))
        self.assertIsNone(gpmf.packets_next_in(b"", 0, False))
        lent = array.array("I", bytes(32))
        self.assertEqual(gpmf.next_metadata(b"DEVC1234" + CASE_12, 0, False, lent), (8, 36, 36, 1, 3, None))
        self.assertEqual(lent[0], 8)
        self.assertIsNone(gpmf.next_metadata(b"", 0, False, lent))
        self.assertEqual(gpmf.next_metadata_in(b"DEVC1234" + CASE_12, 0, True, False, lent), gpmf.More(0))
        cut = gpmf.next_metadata_in(b"DEVC1234" + bytes(gpmf.MOST_BYTES + 4), 0, True, False, lent)
        self.assertEqual((cut.start, cut.end, cut.rest, cut.refusal.args), (8, None, 1, (1, 0)))
        self.assertIsNone(gpmf.next_metadata_in(b"", 0, False, False, lent))


class NumbersAndTexts(Refusing):
    def test_fixed_point(self):
        self.assertEqual((gpmf.q15_16(-2, 32768), gpmf.q15_16(32767, 0)), (-1.5, 32767))
        self.assertEqual((gpmf.q31_32(-2, 2**32 - 1), gpmf.q31_32(7, 0)), (-1, 7))
        self.assertEqual(gpmf.q31_32_exact(-2, 1), Fraction(1, 2**32 - 1) - 2)
        self.assertEqual((gpmf.exact_at(struct.pack(">xiI", -2, 1), 1), gpmf.exact_at(bytes(7), 0)), (Fraction(1, 2**32 - 1) - 2, 0))

    def test_elements_at_places(self):
        widths = {**dict.fromkeys("bB", 1), **dict.fromkeys("sS", 2), **dict.fromkeys("lLfq", 4), **dict.fromkeys("djJQ", 8), **dict.fromkeys("cFGU?x\0\xff", 0)}
        self.assertEqual({letter: gpmf.width(letter) for letter in widths}, widths)
        part = b"\0\xff\xfe\x7f\0\0\0\0\0"
        self.assertEqual([gpmf.element_at(part, 1, letter) for letter in "bBsSL"], [-1, 255, -2, 65534, 0xFFFE7F00])
        self.assertEqual((gpmf.element_at(part, 2, "J"), gpmf.element_at(part, 9, "b"), gpmf.element_at(part, 0, "c")), (0, 0, 0))
        self.assertEqual(gpmf.element_at(struct.pack(">d", 0.1), 0, "d"), 0.1)
        self.assertEqual(gpmf.element_at(struct.pack(">f", 0.1), 0, "f"), struct.unpack(">f", struct.pack(">f", 0.1))[0])
        self.assertTrue(math.isnan(gpmf.element_at(b"\x7f\xc0\0\0", 0, "f")))
        self.assertEqual([gpmf.big_endian(part) for part in (b"", b"\1\2", bytes(range(1, 10)))], [0, 258, 0x0102030405060708])

    def test_bits(self):
        for x in 0.0, -0.0, 1.5, -1e30, math.inf, -math.inf:
            self.assertEqual(gpmf.single_bits(x), struct.unpack("<I", struct.pack("<f", x))[0])
            self.assertEqual(gpmf.double_bits(x), struct.unpack("<Q", struct.pack("<d", x))[0])
        self.assertEqual({gpmf.single_bits(x) for x in (math.nan, -math.nan)}, {0x7FC00000})
        self.assertEqual({gpmf.double_bits(x) for x in (math.nan, -math.nan)}, {0x7FF8000000000000})

    def test_texts(self):
        self.assertEqual((gpmf.latin1_len(b"a\0b\0\0"), gpmf.utf8_len(b"a\0b\0\0"), gpmf.utf8_len(b"abc")), (3, 1, 3))
        for text in b"", b"abc", "\u20ac".encode(), b"\xc0\x80", b"\xed\xa0\x80", b"\xf4\x90\x80\x80", b"\xe2\x82":
            self.assertEqual(gpmf.is_utf8(text), text.decode("utf-8", "replace").encode() == text, text)
        self.assertEqual([gpmf.are_utf8(b"a\0\xffb\0\xff", 3), gpmf.are_utf8(b"a\0\xffb\xffx", 3), gpmf.are_utf8(b"ab\0\xff", 0)], [True, False, True])
        self.assertEqual([gpmf.resolve_custom_type(text) for text in (b"", b"Lffff", b"b[2]L", b"f" * 256)], [b"", b"Lffff", b"bbL", b"f" * 256])
        self.refused(8, 0, gpmf.resolve_custom_type, b"f" * 257)

    def test_quaternions(self):
        self.assertEqual(gpmf.scaled(32767, 100, -200, 0, 100.0), (327.67, -1, -2, 0))
        self.assertEqual(gpmf.scaled(1, -32768, 0, 0, 2), (0.5, -16384, 0, 0))
        self.assertEqual([gpmf.negated(x) for x in (-32768, -32767, 0, 5)], [-32768, 32767, 0, -5])

    def test_durations(self):
        average = gpmf.get_avg_sample_duration
        self.assertEqual(average([10, 10], [True, True], [0, 1_000_000], [1.0, 1.0], [False, False]), 100)
        self.assertEqual(average([10, 5, 9], [False, False, False], [0, 0, 0], [1000, 500.0], [False, False]), 100)
        self.assertIsNone(average([0, 0], [False] * 2, [0] * 2, [1.0] * 2, [False] * 2))
        self.assertIsNone(average([], [], [], [], []))
        self.assertEqual(average(b"\x0a\x0a", [False] * 2, [0, 0], [1000.0, 1000.0], [False, False]), 100)
        self.refused(11, 0, average, [1], [False], [0], [math.inf], [False])
        self.refused(11, 0, average, [65536], [False], [0], [1.0], [False])

    def test_axes(self):
        self.assertEqual(gpmf.orientations_of(b"YxZ", b"ZXY"), ("YxZ", "ZXY"))
        self.refused(9, 0, gpmf.orientations_of, b"YxZ", b"ZX")
        matrix = [[0, 0, 1], [0, -1, 0], [1, 0, 0]]
        self.assertEqual(gpmf.orientations_to_matrix("YxZ", "ZXY"), matrix)
        self.assertEqual((gpmf.matrix_to_orientation(matrix), gpmf.mtrx_to_orientation(sum(matrix, []))), ("ZyX", "ZyX"))
        self.assertEqual(gpmf.matrix_to_orientation([[0, 0.75, 0], [0.25, 0, -0.75], [1, 1, 1]]), "YzX")
        self.refused(10, 0, gpmf.matrix_to_orientation, [[0, 0, 0.5], [0, 1, 0], [1, 0, 0]])
        self.refused(10, 0, gpmf.mtrx_to_orientation, [1] * 8)


class Printing(Refusing):
    def test_lines_follow_each_other(self):
        out, at = bytearray(200), 0
        for call, words in (
            (gpmf.put_answer, ((1, 3),)), (gpmf.put_answer, (gpmf.Refusal(2, 984),)), (gpmf.put, (ord("a"),)), (gpmf.put_bytes, (b"bc ",)),
            (gpmf.put_decimal, (2**64 - 1,)), (gpmf.put, (10,)), (gpmf.put_hex, (0xABCDEF, 4)), (gpmf.put_signed, (-(2**63),)), (gpmf.put_totals, (3, 2, 1)),
        ):
            at = call(out, at, *words)
        self.assertEqual(out[:at], b"rows 1 headers 3\nrefused 2 at 984\nabc 18446744073709551615\ncdef-9223372036854775808packets 3 read 2 refused 1\n")

    def test_what_does_not_fit_is_not_laid(self):
        out = bytearray(5)
        self.assertEqual((gpmf.put_bytes(out, 0, b"abc"), gpmf.put_bytes(out, 3, b"def"), gpmf.put(out, gpmf.FULL, 1)), (3, gpmf.FULL, gpmf.FULL))
        self.assertEqual(out, b"abc\0\0")
        self.assertEqual(gpmf.put_hex(out, 0, 1, 2**64 - 1), gpmf.FULL)

    def test_listings(self):
        text = "rows 1 headers 3\n8 GYRO SCAL 115 2 1 1\n"
        self.assertEqual((gpmf.listing(CASE_12), gpmf.listing(CASE_12, 0)), (text, "refused 5 at 0\n"))
        out, lent = bytearray(200), array.array("I", bytes(32))
        end = gpmf.put_listing(CASE_12, lent, out, 10)
        self.assertEqual((end, out[:10], out[10:end].decode()), (10 + len(text), bytes(10), text))
        self.assertEqual((gpmf.put_rows(out, 0, lent, 1), out[:22]), (22, b"8 GYRO SCAL 115 2 1 1\n"))
        self.assertEqual((gpmf.put_rows(out, 0, lent, 2), out[:15]), (15, b"refused 5 at 0\n"))
        short = bytearray(30)
        self.assertEqual((gpmf.put_listing(CASE_12, lent, short, 0), short), (gpmf.FULL, b"rows 1 headers 3\n".ljust(30, b"\0")))

    def test_a_room_is_any_whole_number(self):
        class Sixty:
            def __index__(self):
                return 60

        self.assertEqual(gpmf.listing(raw("packet"), Sixty()), gpmf.listing(raw("packet")))

    def test_a_listing_is_whole_or_raises(self):
        with unittest.mock.patch.object(gpmf, "put_listing", return_value=gpmf.FULL):
            self.assertRaises(OverflowError, gpmf.listing, CASE_12)

    def test_packets(self):
        out, lent = bytearray(200), array.array("I", bytes(32))
        taken = gpmf.put_packet(CASE_12, 3, 99, False, lent, out, 0)
        self.assertEqual((taken.accepted, out[: taken.end].decode()), (True, f"packet 3 at 99 bytes 28\n{gpmf.listing(CASE_12)}"))
        taken = gpmf.put_packet(CASE_12[:20], 3, 99, False, lent, out, 0)
        self.assertEqual((taken.accepted, out[: taken.end].decode()), (False, "packet 3 at 99 bytes 20\nrefused 2 at 0\nfront rows 0 headers 0\n"))
        self.assertEqual(gpmf.put_packet(CASE_12[:20], 3, 99, True, lent, out, 0), (0, False))
        end = gpmf.put_long_packet(1, 2, 3, False, out, 0)
        self.assertEqual(out[:end], b"packet 1 at 2 bytes 3\nrefused 1 at 0\nfront rows 0 headers 0\n")
        self.assertEqual(gpmf.put_long_packet(1, 2, 3, True, out, 0), 0)

    def test_lines_that_are_read(self):
        self.assertEqual([gpmf.pieces(text, ord(" ")) for text in (b"", b"a", b"a b", b"a b ")], [len(text.split(" ")) for text in ("", "a", "a b", "a b ")])
        self.assertEqual([gpmf.decimal_number(text) for text in (b"0", b"18446744073709551615", b"18446744073709551616", b"", b"-1")], [0, 2**64 - 1, None, None, None])
        self.assertEqual([gpmf.hex_number(text) for text in (b"ff", b"FF", b"")], [255, None, None])
        out = bytearray(2)
        self.assertEqual([gpmf.unhex(text, out) for text in (b"0a", b"0", b"zz", b"010203")], [1, None, None, gpmf.More(0)])
        self.assertEqual(out, b"\x0a\0")


class Memory(unittest.TestCase):
    def test_bytes_may_lie_in_any_of_the_three(self):
        payload = raw("packet")
        expected = list(gpmf.rows(payload))
        shifted = b"x" + payload + b"y"
        for lent in bytearray(payload), memoryview(payload), memoryview(bytearray(payload)), memoryview(shifted)[1:-1], memoryview(bytearray(shifted))[1:-1]:
            self.assertEqual(list(gpmf.rows(lent)), expected)

    def test_they_are_not_copied(self):
        megabytes = 64 << 20
        for file in bytes(megabytes), bytearray(megabytes):
            for lent in file, memoryview(file), memoryview(file)[1:]:
                tracemalloc.start()
                gpmf.find_devc(lent)
                _, most = tracemalloc.get_traced_memory()
                tracemalloc.stop()
                self.assertLess(most, 100_000)

    def test_a_change_is_seen(self):
        payload = bytearray(item("ABCD", "B", 1, 2, b"ab"))
        reading = gpmf.rows(payload)
        payload[8] = 7
        self.assertEqual(reading.value(reading[0]), [7, ord("b")])

    def test_nothing_stays_lent(self):
        payload, lent, out = bytearray(item("ABCD", "B", 1, 2, b"ab")), array.array("I", bytes(64)), bytearray(100)
        gpmf.put_listing(payload, lent, out, 0)
        reading = gpmf.rows(payload)
        self.assertEqual(reading.elements(reading[0]), [[97], [98]])
        with self.assertRaises(gpmf.Refusal):
            gpmf.element(payload, 0, 5, 5)
        with self.assertRaises(ValueError):
            gpmf.element(payload, -1, 0, 0)
        payload.clear()
        del lent[:]
        out.clear()
        self.assertEqual((payload, len(lent), out), (b"", 0, b""))
        with self.assertRaises(gpmf.Refusal) as caught:
            reading.value(reading[0])
        self.assertEqual(caught.exception.number, 12)

    def test_an_error_keeps_nothing_lent(self):
        for name, call, shown in (
            ("an overlap", lambda given: gpmf.put_bytes(given, 0, given), memoryview), ("read only", lambda given: gpmf.put(given, 0, 1), lambda lent: memoryview(lent).toreadonly()),
            ("bytes with gaps", gpmf.rows, lambda lent: memoryview(lent)[::2]), ("no bytes", gpmf.rows, lambda lent: memoryview(lent).cast("I")),
            ("no numbers", lambda given: gpmf.row_at(given, 0), memoryview), ("no long numbers", lambda given: gpmf.elements_at(b"", 0, given), memoryview),
            ("numbers with gaps", lambda given: gpmf.row_at(given, 0), lambda lent: memoryview(lent).cast("I")[::2]),
            ("numbers at an odd place", lambda given: gpmf.row_at(given, 0), lambda lent: memoryview(lent)[1:-3].cast("I")),
        ):
            with self.subTest(name):
                lent, kept = bytearray(64), None
                given = shown(lent)
                try:
                    call(given)
                except (ValueError, TypeError) as error:
                    kept = error  # as a caller may, to look into it later
                given.release()
                lent.clear()  # raises while something holds the memory
                self.assertEqual((lent, kept is None), (b"", False))


if __name__ == "__main__":
    unittest.main()
