#!/usr/bin/env python3
"""make.py FOLDER: writes every sample into FOLDER, and beside each what the programs must print of it.

The take is made up, laid out as a camera of the HERO10 kind does it, with few readings a second; every number follows from what stands here. The prints
come from oracle/take_model.py, which was written from document 01 and knows nothing of the programs."""
import datetime
import pathlib
import random
import struct
import sys

sys.dont_write_bytecode = True  # nothing is left in oracle/
sys.path.insert(0, str(pathlib.Path(__file__).resolve().parent.parent / "oracle"))
import take_model  # noqa: E402

SEED = 1
FIRST_SECOND = datetime.datetime(2024, 2, 29, 23, 59, 58)  # midnight and a leap day lie within the take

# A second each. Of the microphones: whether the main one is wet, reading by reading, whether all are, and the confidence in that, of 100. Of the automatic gain: the
# numbers about which the readings of the level and of the peak level lie, and what divides each into dBFS. Then how many faces the picture has.
SECONDS = (
    ("0000", "0000", 96, -30, -21, (1, 1), 0),
    ("0011", "0000", 62, -36, -27, (1, 1), 1),
    ("1111", "0111", 91, -47, -38, (2, 4), 2),
    ("1100", "1000", 70, -41, -29, (1, 1), 0),
    ("0000", "0000", 94, -24, -12, (1, 1), 1),
)


# ---- items

LETTERS = {"b": "b", "B": "B", "s": "h", "S": "H", "l": "i", "L": "I", "f": "f", "J": "Q"}


def item(key, letter, size, repeat, payload):
    assert size * repeat == len(payload), key
    return key.encode() + letter.encode() + struct.pack(">BH", size, repeat) + payload + bytes(-len(payload) % 4)


def numbers(key, letter, columns, values):
    payload = struct.pack(f">{len(values)}{LETTERS[letter]}", *values)
    return item(key, letter, columns * struct.calcsize(">" + LETTERS[letter]), len(values) // columns, payload)


def text(key, letters):
    """A text as a run of characters."""
    return item(key, "c", 1, len(letters), letters.encode("latin-1"))


def texts(key, *several):
    """Texts of one size, zeros behind the shorter ones."""
    size = max(map(len, several))
    return item(key, "c", size, len(several), b"".join(each.encode("latin-1").ljust(size, b"\0") for each in several))


def container(key, *parts, size=1):
    """A size of 4 lets a longer one be written."""
    inside = b"".join(parts)
    return item(key, "\0", size, len(inside) // size, inside)


# ---- the take

class Camera:
    def __init__(self):
        self.chance = random.Random(SEED)
        self.totals = {}

    def whole(self, low, high):
        """Drawn by random() alone: what the other methods of that class draw may differ between versions of Python."""
        return low + int((high - low + 1) * self.chance.random())

    def wholes(self, count, low, high):
        return [self.whole(low, high) for _ in range(count)]

    def stream(self, second, name, repeat, *items):
        """The last item holds the readings, and `repeat` is how many."""
        total = self.totals[name] = self.totals.get(name, 0) + repeat
        stamp = second * 1_001_000 + self.whole(0, 900)
        return container("STRM", numbers("STMP", "J", 1, [stamp]), numbers("TSMP", "L", 1, [total]), text("STNM", name), *items)

    def motion(self, second, name, key, unit, scale, *more):
        count = self.whole(4, 6)
        axes = text("ORIN", "YxZ"), text("ORIO", "ZXY"), numbers("MTRX", "f", 9, [0, 0, 1, 0, -1, 0, 1, 0, 0])
        readings = numbers(key, "s", 3, self.wholes(3 * count, -9000, 9000))
        return self.stream(second, name, count, texts("SIUN", unit), numbers("SCAL", "s", 1, [scale]), *more, *axes, readings)

    def picture(self, second, faces):
        shutter = [self.whole(20, 2000) / 100_000 for _ in range(3)]
        found = b"".join(struct.pack(">L4f", 7 + each, *(self.whole(0, 64) / 64 for _ in range(4))) for each in range(faces))
        return (
            self.stream(second, "Exposure time (shutter speed)", 3, texts("SIUN", "s"), numbers("SHUT", "f", 1, shutter)),
            self.stream(second, "CameraOrientation", 3, numbers("SCAL", "s", 1, [32767]), numbers("CORI", "s", 4, self.wholes(12, -32767, 32767))),
            self.stream(second, "Faces", faces, text("TYPE", "Lffff"), item("FACE", "?", 20, faces, found)),
        )

    def sound(self, second, main, every, confidence, level, peak, scales):
        count = len(main)
        wind = [value for _ in range(count) for value in (self.whole(0, 1), self.whole(0, 100))]
        wet = [value for pair in zip(main, every) for value in (int(pair[0]), int(pair[1]), confidence + self.whole(-4, 4))]
        gain = [value for _ in range(count) for value in (level + self.whole(-3, 3), peak + self.whole(-3, 3))]
        return (
            self.stream(second, "Wind Processing", count, numbers("WNDM", "B", 2, wind)),
            self.stream(second, "Microphone Wet", count, numbers("MWET", "B", 3, wet)),
            self.stream(second, "AGC audio level", count, texts("SIUN", "dBFS"), numbers("SCAL", "s", 1, scales), numbers("AALP", "b", 2, gain)),
        )

    def place(self, second):
        time = (FIRST_SECOND + datetime.timedelta(seconds=second)).strftime("%y%m%d%H%M%S") + ".400"
        readings = [value for _ in range(2) for value in (484_000_000 + self.whole(0, 900), 24_000_000 + self.whole(0, 900), *self.wholes(3, 0, 9000))]
        return self.stream(
            second, "GPS (Lat., Long., Alt., 2D speed, 3D speed)", 2,
            numbers("GPSF", "L", 1, [3]), item("GPSU", "U", 16, 1, time.encode()), numbers("GPSP", "S", 1, [606]), texts("UNIT", "deg", "deg", "m", "m/s", "m/s"),
            numbers("SCAL", "l", 1, [10_000_000, 10_000_000, 1000, 1000, 100]), numbers("GPS5", "l", 5, readings),
        )

    def packet(self, second, main, every, confidence, level, peak, scales, faces):
        warmth = numbers("TMPC", "f", 1, [30 + self.whole(0, 40) / 8])
        accelerometer = self.motion(second, "Accelerometer", "ACCL", "m/s\xb2", 417)
        gyroscope = self.motion(second, "Gyroscope", "GYRO", "rad/s", 939, warmth)
        streams = accelerometer, gyroscope, *self.picture(second, faces), *self.sound(second, main, every, confidence, level, peak, scales), self.place(second)
        return container("DEVC", numbers("DVID", "L", 1, [1]), text("DVNM", "Camera"), *streams)


# ---- damage

def stream_of(packet, key):
    """The place of the container whose readings have the key."""
    return packet.rindex(b"STRM", 0, packet.index(key))


def with_byte(packet, at, more):
    return packet[:at] + bytes([packet[at] + more]) + packet[at + 1 :]


def damaged(packets):
    """The packets as a card might give them back."""
    first, second, third, fourth, fifth = packets
    yield first  # 1: unharmed
    yield second[:-18]  # 2: its end is lost, so GPS5 is cut: its stream runs past the packet's end (2), and all other streams stand before it
    yield with_byte(third, stream_of(third, b"WNDM") + 7, 4)  # 3: WNDM's stream says 4 bytes too many, too few for a header (3); MWET and AALP lie behind
    yield fourth + b"\xff" * 5  # 4: five stray bytes behind the last item, which the walk passes over
    yield fifth[: fifth.index(b"AALP") + 11]  # 5: the file ends within AALP (2); MWET stands before it, AALP does not


# ---- files

def samples():
    camera = Camera()
    packets = [camera.packet(number, *second) for number, second in enumerate(SECONDS)]
    take, payload = b"".join(packets), packets[1][8:]
    assert take.count(b"DEVC") == len(packets), "a reading spells DEVC: take another seed"
    return {
        "take": take,
        "damaged": b"".join(damaged(packets)),
        "packet": payload,
        "packet_damaged": with_byte(payload, payload.index(b"MWET") + 5, 4),  # a reading of MWET says 7 bytes, not 3, and so runs past its stream (2)
        "empty": b"",
    }


def listed(payload):
    """What `list` prints."""
    try:
        return take_model.listing(payload)
    except take_model.Refused as why:
        return "refused {} at {}\n".format(*why.args)


if __name__ == "__main__":
    if len(sys.argv) != 2:
        sys.exit("usage: make.py FOLDER")
    folder = pathlib.Path(sys.argv[1])
    for name, contents in samples().items():
        (folder / f"{name}.raw").write_bytes(contents)
        (folder / f"{name}.list").write_text(listed(contents))
        (folder / f"{name}.take").write_text(take_model.take(contents, False))
        (folder / f"{name}.whole").write_text(take_model.take(contents, True))
