"""The sample takes: rows, values, refusals and fronts, whole and piece by piece, against the tables and prints that are stored beside them."""
import array
import datetime
import io
import itertools
import os
import random
import struct
import tempfile
import unittest
import unittest.mock

import gpmf
from samples import NAMES, SAMPLES, item, listed, packet_text, raw, refused, seconds, stored, take_model, take_text

PIECES = (1, 2, 3, 7, 8, 9, 100, 1228, 4096, 65536)
DEVC = b"DEVC\0\1\0\0"


class Prints(unittest.TestCase):
    """What the programs print, built out of rows."""

    def test_each_sample_is_here(self):
        self.assertEqual(NAMES, ["damaged", "empty", "packet", "packet_damaged", "take"])

    def test_lists(self):
        for name in NAMES:
            with self.subTest(name):
                try:
                    text = listed(gpmf.rows(raw(name)))
                except gpmf.Refusal as why:
                    text = refused(why)
                self.assertEqual(text, stored(f"{name}.list"))
                self.assertEqual(gpmf.listing(raw(name)), text)

    def test_takes(self):
        for name in NAMES:
            for whole, end in (False, "take"), (True, "whole"):
                with self.subTest(name, whole=whole):
                    self.assertEqual(take_text(gpmf.packets(raw(name)), whole), stored(f"{name}.{end}"))
                    self.assertEqual(take_text(gpmf.open_take(SAMPLES / f"{name}.raw"), whole), stored(f"{name}.{end}"))

    def test_takes_piece_by_piece(self):
        for name in NAMES:
            for piece in PIECES:
                with self.subTest(name, piece=piece):
                    self.assertEqual(take_text(gpmf.open_take(io.BytesIO(raw(name)), piece=piece)), stored(f"{name}.take"))


class Values(unittest.TestCase):
    """The take's values, against the table of README.md and against the bytes."""

    def setUp(self):
        self.packets = list(gpmf.packets(raw("take")))
        self.readings = [packet.reading for packet in self.packets]

    def values(self, reading, group, key):
        return reading.value(reading.lookup(group, key))

    def test_wet_microphones_and_gain(self):
        table = seconds()
        self.assertEqual(list(table), [1, 2, 3, 4, 5])
        for packet in self.packets:
            columns = table[packet.number]
            self.assertEqual(self.values(packet.reading, "MWET", "MWET"), [list(each) for each in zip(*columns[:3])])
            self.assertEqual(self.values(packet.reading, "AALP", "AALP"), [list(each) for each in zip(*columns[3:5])])
            self.assertEqual(self.values(packet.reading, "AALP", "SCAL"), columns[5])

    def test_an_element_is_that_of_the_value(self):
        for reading in self.readings:
            for row in reading:
                for n, line in enumerate(reading.elements(row)):
                    self.assertEqual(line, [reading.element(row, n, column) for column in range(gpmf.columns(reading.payload, row, n))])

    def test_dates_pass_midnight_of_a_leap_day(self):
        first = datetime.datetime(2024, 2, 29, 23, 59, 58, 400_000, tzinfo=datetime.timezone.utc)
        dates = [self.values(reading, "GPS5", "GPSU") for reading in self.readings]
        self.assertEqual(dates, [first + datetime.timedelta(seconds=number) for number in range(5)])
        self.assertEqual(dates[2].isoformat(), "2024-03-01T00:00:00.400000+00:00")

    def test_texts(self):
        for reading in self.readings:
            self.assertEqual(self.values(reading, None, "DVNM"), "Camera")
            self.assertEqual(self.values(reading, "MWET", "STNM"), "Microphone Wet")
            self.assertEqual(self.values(reading, "ACCL", "SIUN"), "m/s\xb2")
            self.assertEqual(self.values(reading, "GPS5", "UNIT"), ["deg", "deg", "m", "m/s", "m/s"])

    def test_numbers(self):
        for reading in self.readings:
            self.assertEqual(self.values(reading, None, "DVID"), 1)
            self.assertEqual(self.values(reading, "GPS5", "SCAL"), [10_000_000, 10_000_000, 1000, 1000, 100])
            self.assertEqual(self.values(reading, "ACCL", "MTRX"), [[0, 0, 1, 0, -1, 0, 1, 0, 0]])

    def test_structures(self):
        faces = [reading.lookup("FACE", "FACE") for reading in self.readings]
        self.assertEqual([row and row.repeat for row in faces], [None, 1, 2, None, 1])
        for reading, row in zip(self.readings, faces):
            if row is not None:
                data = bytes(reading.payload)[row.place + 8 :][: 20 * row.repeat]
                self.assertEqual((row.type, bytes(reading.payload)[row.type_place :][:13]), ("?", b"TYPEc\1\0\5Lffff"))
                self.assertEqual(reading.shape(row), (gpmf.Kind.STRUCTURES, row.repeat, 5))
                self.assertEqual(reading.value(row), [list(each) for each in struct.iter_unpack(">L4f", data)])
                self.assertEqual([line[0] for line in reading.value(row)], [7, 8][: row.repeat])
                self.assertEqual(gpmf.value(reading.payload, row.place, row.type_place), reading.value(row))

    def test_what_a_group_leads_to(self):
        for number, reading in enumerate(self.readings):
            stamp = self.values(reading, "MWET", "STMP")
            self.assertEqual(reading.stamp_us("MWET"), stamp)
            self.assertEqual(stamp // 1_001_000, number)
            self.assertEqual(reading.orientation("GYRO"), "ZyX")  # by MTRX, which stands beside ORIN and ORIO
            self.assertIsNone(reading.orientation("MWET"))
            w, x, y, z = self.values(reading, "CORI", "CORI")[2]
            self.assertEqual(reading.quaternion("CORI", 2), (w / 32767, -x / 32767, y / 32767, z / 32767))
            self.assertIsNone(reading.quaternion("MWET", 0))

    def test_lookup_by_tag(self):
        reading = self.readings[0]
        self.assertEqual(reading.lookup("MWET", gpmf.Tag.DATA), reading.lookup("MWET", "MWET"))
        self.assertEqual([reading.lookup("GYRO", tag).key for tag in gpmf.Tag if tag is not gpmf.Tag.OTHER], "GYRO SIUN MTRX SCAL STMP STNM TMPC TSMP ORIN ORIO".split())
        self.assertIsNone(reading.lookup("MWET", gpmf.Tag.SCALE))
        for outside in gpmf.Tag.OTHER, 0, 11, -1, 2**70, 1.5, None:
            self.assertRaises(ValueError, reading.lookup, "MWET", outside)

    def test_lookup_by_key(self):
        reading = self.readings[0]
        self.assertEqual((reading.lookup("MWET", "MWET").key, reading.lookup("GPS5", "GPSP").place), ("MWET", 1100))
        for group, key in (None, "MWET"), ("MWET", "GPSP"), ("FOUR", "MWET"), ("ACCL", "UNIT"):
            self.assertIsNone(reading.lookup(group, key))

    def test_a_key_may_be_asked_for_in_hex(self):
        reading = self.readings[0]
        for row in reading:
            self.assertEqual(reading.lookup(row.group, f"x{gpmf.key_number(row.key):08x}"), reading.lookup(row.group, row.key))
        self.assertEqual(reading.lookup(f"x{gpmf.key_number('MWET'):08x}", "STNM").group, "MWET")
        self.assertIsNone(reading.lookup("MWET", f"x{gpmf.key_number('DVNM'):08x}"))  # which has the tag of STNM

    def test_lookup_with_one_group_for_all(self):
        reading = gpmf.rows(self.packets[0].payload, forced=True)
        self.assertEqual({row.group for row in reading}, {None})
        self.assertEqual(reading.lookup(None, gpmf.Tag.DATA).key, "GPS5")
        for row in reading:
            last = [each for each in reading if each.key == row.key][-1]
            self.assertEqual(reading.lookup(None, row.key), last)

    def test_a_reading_is_a_sequence(self):
        reading = self.readings[0]
        rows = list(reading)
        self.assertEqual((len(rows), len(reading), reading.headers), (57, 57, 68))
        self.assertEqual((reading[-1], reading[5:8], reading[::-20]), (rows[-1], rows[5:8], rows[::-20]))
        self.assertEqual((rows[0].key, rows[0].group, rows[0].depth, rows[0].type, rows[0].type_place), ("DVID", None, 0, "L", None))
        self.assertIn(rows[3], reading)
        for outside in 57, -58, 2**70:
            self.assertRaises(IndexError, reading.__getitem__, outside)
        self.assertEqual(repr(reading), "<gpmf.Reading: 57 rows, 68 headers>")


class Damage(unittest.TestCase):
    """What is refused, by number and place, and what stands before it."""

    def setUp(self):
        self.packets = list(gpmf.packets(raw("damaged")))

    def test_numbers_and_places(self):
        told = [(each.refusal.number, each.refusal.place) if each.refusal else None for each in self.packets]
        self.assertEqual(told, [None, (2, 984), (3, 752), None, (2, 892)])
        for packet in self.packets:
            if packet.refusal:
                self.assertEqual(bytes(packet.payload[packet.refusal.place :][:4]), b"STRM")

    def test_a_packet_has_a_reading_or_a_refusal(self):
        for packet in self.packets:
            self.assertNotEqual(packet.reading is None, packet.refusal is None)
            if packet.refusal:
                with self.assertRaises(gpmf.Refusal) as caught:
                    gpmf.rows(packet.payload)
                self.assertEqual(caught.exception.args, packet.refusal.args)

    def test_a_refused_payload_leaves_nothing(self):
        for packet in self.packets:
            lent = array.array("I", range(57 * 8))
            before = lent[:]
            if packet.refusal:
                self.assertRaises(gpmf.Refusal, gpmf.parse_metadata, packet.payload, False, lent)
                self.assertEqual(lent, before)
            else:
                self.assertEqual(gpmf.parse_metadata(packet.payload, False, lent), (len(packet.reading), packet.reading.headers))
                self.assertEqual(lent[: 8 * len(packet.reading)], packet.reading.numbers)

    def test_fronts(self):
        for packet in self.packets:
            if packet.refusal:
                self.assertEqual(list(packet.front()), list(gpmf.rows(packet.payload[: packet.refusal.place])))
            else:
                self.assertIs(packet.front(), packet.reading)
        keys = [{row.key for row in packet.front()} & {"MWET", "AALP"} for packet in self.packets]
        self.assertEqual(keys, [{"MWET", "AALP"}, {"MWET", "AALP"}, set(), {"MWET", "AALP"}, {"MWET"}])

    def test_a_front_has_the_same_room_and_the_same_group(self):
        for room in 0, 3, 20, 49, 57:
            for forced in False, True:
                for packet in gpmf.packets(raw("damaged"), forced, room):
                    place = len(packet.payload) if packet.refusal is None else packet.refusal.place
                    self.assertEqual(list(packet.front()), list(gpmf.rows(packet.payload[:place], forced, room)))
        self.assertEqual({packet.refusal.number for packet in gpmf.packets(raw("take"), room=56)}, {5})


class PieceByPiece(unittest.TestCase):
    """Made-up files are read alike whole and in pieces, and as the model reads them."""

    def same(self, file, pieces=PIECES):
        whole = take_text(gpmf.packets(file))
        self.assertEqual(whole, take_model.take(file, False))
        for piece in pieces:
            self.assertEqual(take_text(gpmf.open_take(io.BytesIO(file), piece=piece)), whole, (piece, file[:200].hex()))

    def test_small_files(self):
        draw = random.Random(5)
        for _ in range(150):
            self.same(take_model.random_file(draw)[:3000], (1, 5, 8, 64, 65536))

    def test_packets_at_the_limit_and_over_it(self):
        good = item("ABCD", "B", 1, 3, b"abc")
        for more in -1, 0, 1, 2, 3, 4, 5:
            self.same(DEVC + bytes(gpmf.MOST_BYTES + more) + DEVC + good, (65536, 1048576))
            self.same(DEVC + bytes(gpmf.MOST_BYTES + more), (65536, 1048577))
        self.same(DEVC + bytes(3 * gpmf.MOST_BYTES) + DEVC + bytes(2 * gpmf.MOST_BYTES) + DEVC + good, (65536, 1048579, 2**23))

    def test_long_packets_of_which_two_overlap(self):
        for between in 4, 5, 6, 7:
            for behind in b"", b"DEVC", b"DEVC1234", DEVC + b"1":
                for more in -8, 0, 9, 500_000:
                    self.same(b"x" + b"DEVC".ljust(between, b"x") + DEVC + bytes(gpmf.MOST_BYTES + more) + behind, (65536,))

    def test_the_bytes_of_a_packet_over_the_limit_are_not_held(self):
        file = DEVC + bytes(gpmf.MOST_BYTES + 1)
        for packets in gpmf.packets(file), gpmf.open_take(io.BytesIO(file)):
            (packet,) = packets
            self.assertEqual((packet.number, packet.start, packet.length, packet.refusal.args, list(packet.front())), (1, 8, len(file) - 8, (1, 0), []))
            with self.assertRaises(gpmf.Refusal) as caught:
                packet.payload
            self.assertEqual(caught.exception.args, (1, 0))

    def test_what_is_held_is_bounded(self):
        for piece in 4096, 65536:
            file = Endless(30_000_000)
            take = gpmf.open_take(file, piece=piece)
            read, most = take._window.read, []
            take._window.read = lambda *words: (read(*words), most.append(len(take._window.held)))
            self.assertEqual([packet.length for packet in take], [30_000_000 - 8])
            self.assertLessEqual(max(most), 8 + gpmf.MOST_BYTES + 3 + piece)
            self.assertGreater(max(most), gpmf.MOST_BYTES)


    def test_a_packet_is_not_searched_anew_for_each_piece(self):
        file = DEVC + bytes(gpmf.MOST_BYTES - 5) + DEVC + item("ABCD", "B", 1, 3, b"abc") + bytes(200_000)
        searched = []

        def counted(call):
            return lambda window, at, *words: (searched.append(len(window) - at), call(window, at, *words))[1]

        for piece in 16, 1000, 65536:
            searched.clear()
            with unittest.mock.patch.multiple(gpmf, next_metadata_in=counted(gpmf.next_metadata_in), find_devc=counted(gpmf.find_devc)):
                self.assertEqual([packet.length for packet in gpmf.open_take(io.BytesIO(file), piece=piece)], [gpmf.MOST_BYTES - 5, 200_012])
            self.assertLess(sum(searched), 4 * len(file) + 3 * len(file) // piece)

    def test_a_packet_is_told_as_soon_as_its_end_is_read(self):
        good = DEVC + item("ABCD", "B", 1, 3, b"abc")
        for piece in PIECES:
            file = io.BytesIO(b"..." + good * 2 + b"DEVC")
            take = gpmf.open_take(file, piece=piece)
            for number in 1, 2:
                self.assertEqual((next(take).number, file.tell()), (number, min(-(-(3 + number * len(good) + 4) // piece) * piece, len(file.getvalue()))))


class Endless:
    """A file of one packet of zeros, without the bytes."""

    def __init__(self, left):
        self.left, self.first = left, DEVC

    def read(self, count):
        count = min(count, self.left)
        self.left -= count
        part, self.first = self.first[:count].ljust(count, b"\0"), b""
        return part


class Short(io.BytesIO):
    """A file that gives fewer bytes than it is asked for."""

    def read(self, count=-1):
        return super().read(min(count, 5))


class Failing(io.BytesIO):
    """A file that gives no piece every other time: it has none yet, or raises, or gives what is no piece."""

    def __init__(self, file):
        super().__init__(file)
        self.wrong = itertools.cycle((None, memoryview(bytes(8))[::2], "text", [1], OSError("no piece")))
        self.calls = 0

    def read(self, count=-1):
        self.calls += 1
        if self.calls % 2:
            return super().read(count)
        wrong = next(self.wrong)
        if isinstance(wrong, OSError):
            raise wrong
        return wrong


class Files(unittest.TestCase):
    """A path, and what may stand in for a file."""

    def test_paths(self):
        for path in str(SAMPLES / "take.raw"), SAMPLES / "take.raw":
            take = gpmf.open_take(path)
            self.assertEqual(take_text(take), stored("take.take"))
            self.assertTrue(take._opened.closed)
        self.assertRaises(FileNotFoundError, gpmf.open_take, SAMPLES / "none.raw")

    def test_open_files(self):
        with open(SAMPLES / "take.raw", "rb") as buffered, open(SAMPLES / "take.raw", "rb", buffering=0) as plain:
            for file in buffered, plain, Short(raw("take")):
                self.assertEqual(take_text(gpmf.open_take(file)), stored("take.take"))
                self.assertFalse(file.closed)

    def test_a_pipe(self):
        read, write = os.pipe()
        with open(read, "rb", buffering=0) as file, open(write, "wb") as out:
            out.write(raw("damaged"))
            out.close()
            self.assertEqual(take_text(gpmf.open_take(file)), stored("damaged.take"))

    def test_a_take_can_be_left_early(self):
        with gpmf.open_take(SAMPLES / "take.raw", piece=100) as take:
            self.assertEqual(next(take).number, 1)
            self.assertFalse(take._opened.closed)
        self.assertTrue(take._opened.closed)
        self.assertEqual(list(take), [])

    def test_no_packet_comes_after_close(self):
        over = DEVC + bytes(2 * gpmf.MOST_BYTES)
        for file in over + DEVC + item("ABCD", "B", 1, 3, b"abc"), b"DEVC\0" + over:  # of each, both packets are known at once
            self.assertEqual([packet.number for packet in gpmf.open_take(io.BytesIO(file))], [1, 2])
            take = gpmf.open_take(io.BytesIO(file))
            self.assertEqual((next(take).number, len(take._ready)), (1, 1))
            take.close()
            self.assertEqual(list(take), [])

    def test_packets_outlive_the_window(self):
        packets = list(gpmf.open_take(SAMPLES / "take.raw", piece=10))
        self.assertEqual("".join(map(packet_text, packets)), "".join(map(packet_text, gpmf.packets(raw("take")))))
        self.assertEqual([bytes(packet.payload) for packet in packets], [bytes(packet.payload) for packet in gpmf.packets(raw("take"))])

    def test_no_bytes(self):
        self.assertEqual((list(gpmf.packets(b"")), list(gpmf.open_take(SAMPLES / "empty.raw"))), ([], []))
        self.assertEqual((len(gpmf.rows(b"")), gpmf.rows(b"").headers), (0, 0))

    def test_files_that_give_no_bytes(self):
        with open(SAMPLES / "README.md", encoding="utf-8") as text:
            self.assertRaises(TypeError, list, gpmf.open_take(text))
        read, write = os.pipe()
        os.set_blocking(read, False)
        with open(read, "rb", buffering=0) as file, open(write, "wb"):
            self.assertRaises(BlockingIOError, list, gpmf.open_take(file))
        greedy = Endless(100)
        greedy.read = lambda count: bytes(count + 1)
        self.assertRaises(ValueError, list, gpmf.open_take(greedy))

    def test_no_packet_is_lost_where_a_read_fails(self):
        for name in NAMES:
            for piece in 1, 7, 100, 1228, 4096:
                take, found, failed = gpmf.open_take(Failing(raw(name)), piece=piece), [], 0
                while not take._ended:
                    try:
                        for packet in take:
                            found.append(packet)
                    except (OSError, TypeError, ValueError):
                        failed += 1
                self.assertEqual(take_text(found), stored(f"{name}.take"))
                self.assertEqual(failed, take._file.calls // 2)

    def test_an_open_file_is_read_from_where_it_stands(self):
        with tempfile.TemporaryFile() as file:
            file.seek(5_000_000_000)
            file.write(DEVC + item("ABCD", "B", 1, 3, b"abc"))
            file.seek(4_990_000_000)  # what stands before is not read, and places count from here
            take = gpmf.open_take(file)
            (packet,) = take
            self.assertEqual((packet.start, packet.length, packet.reading[0].key), (10_000_008, 12, "ABCD"))


if __name__ == "__main__":
    unittest.main()
