#!/usr/bin/env python3
"""questions.py [--seed N] [--times N] [KIND ..]: questions for the oracle and for our programs that replay them, one a line (README.md).

All inputs are made up. Each kind draws from a generator of its own, started by the seed and the kind's name, so a new kind
leaves the questions of the others as they are. --times repeats the random part: 1 for the stored list, more for a long run.
The seed and the number of questions of each kind go to standard error."""
import argparse
import itertools
import random
import struct
import sys

GROUP_KEYS = "GYRO ACCL GRAV MAGN CORI IORI SHUT GPS5 FASC MWET AALP WNDM UNIF WRGB WBAL ISOE".split()
OTHER_TAG_KEYS = "SIUN UNIT MTRX SCAL STMP STNM DVNM TMPC TSMP ORIN ORIO".split()
STRANGE_KEYS = "DEVC DVID STRM TYPE TICK TIMO EMPT FACE GPS9 GPSF GPSP GPSU ABCD gyro".split()
LARGEST_PLACE = 2**64 - 1


def shown(payload):
    """Bytes as a question has them."""
    return bytes(payload).hex() or "-"


def header(data_type, size, repeat, key=b"ABCD"):
    """The 8 bytes that stand before an item's payload."""
    return key + bytes([data_type, size]) + repeat.to_bytes(2, "big")


def ask_header(place, payload):
    return f"header {place} {shown(payload)}"


def short_payloads(_):
    """Every length from 0 to 9 at every place from 0 to 10, with small sizes and repeats: as much of a header as there is room for."""
    for length in range(10):
        for place in range(11):
            for size in range(3):
                for repeat in range(3):
                    payload = bytearray(range(length))
                    payload[place:] = header(0x42, size, repeat)[: max(0, length - place)]
                    yield ask_header(place, payload[:length])


def whole_and_short(_):
    """An item's payload one byte short, exactly whole, with its padding, and with one byte more; at a place on and off a multiple of 4."""
    for size in (1, 2, 3, 4, 5, 6, 7, 12):
        for repeat in (1, 2, 3):
            whole = size * repeat
            for there in sorted({whole - 1, whole, whole + -whole % 4, whole + -whole % 4 + 1}):
                for place in (0, 3):
                    yield ask_header(place, bytes(place) + header(0x73, size, repeat) + bytes(range(1, there + 1)))


def limits(_):
    """Sizes and repeats at their limits, with as many bytes as are wanted and with one byte less; payloads nearly as long as `replay` takes."""
    counts = (0, 1, 2, 254, 255)
    for size in counts:
        for repeat in counts + (256, 257, 32767, 32768, 65534, 65535):
            for there in (0, 1, 2, 3):
                yield ask_header(0, header(255, size, repeat) + bytes(there))
    for size, repeat in ((255, 1), (1, 255), (254, 1), (85, 3), (1, 256), (255, 2)):
        for there in (size * repeat - 1, size * repeat):
            yield ask_header(1, bytes(1) + header(0, size, repeat) + bytes(there))
    for there in (255 * 32 - 1, 255 * 32):
        yield ask_header(0, header(0, 255, 32) + bytes(there))


def far_places(_):
    """Places before, at and past the end, up to the largest number."""
    for length in (0, 7, 8, 9, 20):
        payload = header(0x4C, 4, 0) + header(0x63, 1, 3) + b"abcdefgh"
        near = range(max(0, length - 9), length + 10)
        far = [2**k + d for k in (8, 16, 31, 32, 63) for d in (-8, -1, 0)] + [LARGEST_PLACE - d for d in (16, 8, 7, 1, 0)]
        for place in [*near, *far]:
            yield ask_header(place, payload[:length])


def random_headers(draw, times):
    """Items of random bytes at random places: half of them whole, the others anything; some asked at a place nearby."""
    for _ in range(800 * times):
        place = draw.randrange(12)
        small = draw.random() < 0.7
        size, repeat = (draw.randrange(7), draw.randrange(7)) if small else (draw.randrange(256), draw.randrange(65536))
        there = size * repeat + draw.randrange(4) if small and draw.random() < 0.8 else draw.randrange(24)
        item = header(draw.randrange(256), size, repeat, draw.randbytes(4)) + draw.randbytes(there)
        asked = place if draw.random() < 0.8 else draw.randrange(24)
        yield ask_header(asked, draw.randbytes(place) + item)


def changed(key):
    """A key with one byte changed: its case, its neighbours, its highest bit, no byte at all; its neighbours as a number; turned about."""
    for at in range(4):
        for byte in (key[at] ^ 0x20, key[at] + 1, key[at] - 1, key[at] ^ 0x80, 0):
            yield key[:at] + bytes([byte]) + key[at + 1 :]
    for step in (1, -1):
        yield (int.from_bytes(key, "big") + step).to_bytes(4, "big")
    yield key[::-1]
    yield key.lower()


def keys(draw, times):
    """Every listed key, each changed in one byte, some strangers, random keys, no bits and all bits."""
    listed = [k.encode() for k in GROUP_KEYS + OTHER_TAG_KEYS]
    yield from listed
    for key in listed:
        yield from changed(key)
    yield from (k.encode() for k in STRANGE_KEYS)
    yield from (bytes(4), b"\xff" * 4, b"\0\0\0\1", b"\x80\0\0\0", b"    ")
    for _ in range(100 * times):
        yield draw.randbytes(4)
        yield bytes(draw.choice(b"ABCDEFGHIJKLMNOPQRSTUVWXYZ0123456789") for _ in range(4))


# ---- items, values and texts

TYPES = b"bBsSlLfdjJqQcFGU?"
WIDTHS = dict(zip(b"bBsSlLfqdjJQ", (1, 1, 2, 2, 4, 4, 4, 4, 8, 8, 8, 8)))


def item(key, data_type, size, repeat, payload):
    """A whole item with its padding, of zeros."""
    return header(data_type, size, repeat, key) + payload + bytes(-len(payload) % 4)


def one(key, data_type, payload):
    """An item of one sample: a text, a date, a single number."""
    return item(key, data_type, len(payload), 1, payload)


def ask_walk(payload, forced=0):
    return f"walk {forced} {shown(payload)}"


def ask_items(items, most=7000):
    """Items with keys of their own in as few payloads as lines have room for, so that each has its entry in the answer."""
    payload, count = b"", 0
    for data_type, size, repeat, contents in items:
        made = item(b"%c%03d" % (97 + count // 1000, count % 1000), data_type, size, repeat, contents)
        if len(payload) + len(made) > most:
            yield ask_walk(payload)
            payload = b""
        payload, count = payload + made, count + 1
    yield ask_walk(payload)


def every_type(draw, times):
    """Every type byte with sizes 0 to 17 and repeats 0 to 4, of random bytes; containers alone, with both forcings."""
    for _ in range(times):
        for data_type in range(1, 256):
            yield from ask_items((data_type, size, repeat, draw.randbytes(size * repeat)) for size in range(18) for repeat in range(5))
        for size in range(18):
            for repeat in range(5):
                for forced in (0, 1):
                    yield ask_walk(item(b"STRM", 0, size, repeat, draw.randbytes(size * repeat)), forced)


def special_numbers(draw, times):
    """Whole numbers at the ends of their ranges; q and Q at the limits of their parts; floats with NaNs, infinities and the least."""
    ends = [n.to_bytes(8, "big") for n in (0, 1, 2**63 - 1, 2**63, 2**63 + 1, 2**64 - 1)]
    for letter in b"bBsSlLjJ":
        width = WIDTHS[letter]
        yield from ask_items((letter, width, 1, end[:part] + end[8 - width + part :]) for end in ends for part in range(width + 1))
    highs = [*range(-258, -253), *range(-2, 3), *range(253, 259), -32768, -32767, 32766, 32767] + [draw.randrange(-32768, 32768) for _ in range(150 * times)]
    lows = (0, 1, 64, 32768, 65535)
    parts = [(high, low) for high in highs[:20] for low in lows] + [(high, draw.randrange(65536)) for high in highs]
    yield from ask_items((ord("q"), 4, 1, (high % 65536 * 65536 + low).to_bytes(4, "big")) for high, low in parts)
    highs = [n % 2**32 for n in (0, 1, -1, 2**31 - 1, -(2**31), 2**22, 2**24 + 1)]
    lows = [0, 1, 2**31, 2**32 - 2, 2**32 - 1]
    parts = [(high, low) for high in highs for low in lows] + [(draw.randrange(2**32), draw.randrange(2**32)) for _ in range(150 * times)]
    yield from ask_items((ord("Q"), 8, 1, (high * 2**32 + low).to_bytes(8, "big")) for high, low in parts)
    for letter, width, top in (("f", 4, 0x7F80 << 16), ("d", 8, 0x7FF0 << 48)):
        half = 1 << (8 * width - 1)
        bits = [sign + n for sign in (0, half) for n in (0, 1, 2, top >> 1, top - 1, top, top + 1, half - 1, top + (half - top) // 2)]
        yield from ask_items((ord(letter), width, 1, n.to_bytes(width, "big")) for n in bits)


def quaternions(draw, times):
    """s under CORI and IORI with sizes 0 to 17 and repeats 0 to 4, and other letters and keys beside them."""
    for _ in range(times):
        for key in (b"CORI", b"IORI"):
            for size in range(18):
                for repeat in range(5):
                    yield ask_walk(item(key, ord("s"), size, repeat, draw.randbytes(size * repeat)))
        for key, letter in ((b"CORI", "S"), (b"IORI", "l"), (b"CORi", "s"), (b"GRAV", "s")):
            yield ask_walk(item(key, ord(letter), 8, 3, draw.randbytes(24)))


def dates(draw, times):
    """Dates at the limits of each field, with signs and other bytes in each, too short, too long, and random ones."""
    texts = [b"240229120000.000", b"230229120000.000", b"000101000000.000", b"991231235959.999", b"700101000000.000", b"+1+1+1+1+1+1.+01"]
    base = b"240715101112.345"
    for at, width, values in ((0, 2, range(100)), (2, 2, range(15)), (4, 2, range(34)), (6, 2, range(26)), (8, 2, range(62)), (10, 2, range(62))):
        texts += [base[:at] + b"%02d" % n + base[at + width :] for n in values]
        texts += [base[:at] + b"%c%d" % (sign, n) + base[at + width :] for sign in b"+- " for n in (0, 1, 9)]
    texts += [b"%02d%02d%02d000000.000" % (year, month, day) for year in (0, 1, 4, 99) for month in range(1, 13) for day in (28, 29, 30, 31)]
    texts += [base[:13] + n for n in (b"000", b"999", b"+99", b"-99", b" 99", b"9 9")]
    texts += [base[:at] + bytes([b]) + base[at + 1 :] for at in range(16) for b in (0, 32, 43, 45, 46, 47, 58, 127, 128, 255)]
    texts += [base[:at] + c.encode() + base[at + len(c.encode()) :] for at in range(15) for c in ("é", "¿")]
    texts += [base[:length] for length in range(1, 16)] + [base + b"0", base + bytes(4)]
    for _ in range(100 * times):
        text = bytearray(b"%02d%02d%02d%02d%02d%02d.%03d" % tuple(draw.randrange(n) for n in (100, 14, 33, 25, 61, 61, 1000)))
        if draw.random() < 0.3:
            text[draw.randrange(16)] = draw.choice(b"+-. 09:/") if draw.random() < 0.7 else draw.randrange(256)
        texts.append(bytes(text))
    yield from ask_items((ord("U"), len(text), 1, text) for text in texts)
    yield from ask_items((ord("U"), 4, 4, text) for text in texts[:6])


SCALARS = (0x41, 0x7F, 0x80, 0x7FF, 0x800, 0xFFF, 0x1000, 0xD7FF, 0xE000, 0xFFFF, 0x10000, 0x3FFFF, 0x40000, 0x10FFFF)
NOT_UTF8 = ("80", "bf", "c0", "c080", "c1bf", "c2", "c241", "df", "e0", "e080", "e08080", "e09fbf", "e0a0", "ed9f", "eda080", "edbfbf", "ee80", "f0", "f08080",
            "f08fbfbf", "f0908080", "f3bfbf", "f48fbfbf", "f4908080", "f5808080", "f8888080", "fe", "ff", "efbfbf", "e28241", "f09f9841")


def texts(draw, times):
    """Texts of c and F: Latin-1, with zeros inside and behind; several, of all borders of UTF-8, whole and broken, in each of their rows."""
    singles = [bytes(n) for n in (1, 2, 5)] + [b"a" + bytes(n) for n in range(5)] + [b"a\0b\0", b"\0a", bytes(range(256))[:255], bytes(range(1, 128)), bytes(range(128, 255))]
    yield from ask_items((letter, len(text), 1, text) for letter in b"cF" for text in singles)
    yield from ask_items((letter, 1, len(text), text) for letter in b"cF" for text in singles)
    pieces = [chr(c).encode() for c in SCALARS] + [bytes.fromhex(h) for h in NOT_UTF8]
    several = []
    for text in pieces:
        for before in (b"", b"x", b"\0"):
            padded = (before + text).ljust(6, b"\0")
            several += [(6, 2, padded + b"second"), (6, 3, b"first." + padded + b"third\0"), (6, 2, b"second" + padded), (len(before + text), 2, (before + text) * 2)]
    for _ in range(60 * times):
        size, repeat = draw.randrange(2, 12), draw.randrange(2, 5)
        body = b"".join(draw.choice(pieces[: len(SCALARS)] if draw.random() < 0.9 else pieces) for _ in range(20))
        several.append((size, repeat, body[: size * repeat].ljust(size * repeat, b"\0")))
    yield from ask_items((ord("c"), *text) for text in several)
    yield from ask_items((ord("F"), *text) for text in several[::5])


def type_texts(draw, times):
    """TYPE texts: those of document 01's case 7, at the limit of 256 characters, with numbers of 64 bits and more, and random ones."""
    yield from ("f[3]", "f[0]", "f[1]", "f[2]", "f[+5]", "[3]f", "f[-2]", "f[3[4]", "Lff[2", "f[18446744073709551616]", "", "[", "]", "[]", "f[]", "f]", "f[3]]", "[[3]]f[2]")
    yield from ("f[256]", "f[257]", "f[18446744073709551615]", "a[255]b", "a[255]b[2]", "ab[255]", "a[200]b[56]", "a[200]b[57]", "[256]f", "f[00000000000000000000000003]")
    yield from ("\xe9[2]", "\xe9\xe9[3]", "\xff[3]", "\x80[2]", "\xbf[2]f[2]", "f[\xb2]", "f[2\xb2]", "f[ 2]", "f[2 ]", "f[++2]", "f[+]", "f[2+]", "f[+0]", "f[0x2]", "\0[3]", "f\0[3]")
    yield from ("f" * 256, "f" * 257, "f[128]" * 2, "f[128]" * 2 + "f", "LLLfffs[12]", "Ff", "bBsSlLfdjJqQ", "x", "f[2]xq")
    for _ in range(400 * times):
        yield "".join(draw.choice("fLsb[]]]+-0123x\xe9\xff 9") for _ in range(draw.randrange(1, 14)))
    for _ in range(100 * times):
        yield "".join(draw.choice("fLsbB\xe9") + draw.choice(["", "[%d]" % draw.randrange(300), "[%d]" % draw.randrange(12)]) for _ in range(draw.randrange(1, 6)))


def expanded_length(text):
    """How many characters a TYPE text expands to: the Rust writes out what fits its memory, and more than 256 are refused with 8 here."""
    length, number, inside = 0, "", False
    for c in text:
        if c == "[":
            inside = True
        elif c == "]":
            digits = number[1:] if number[:1] == "+" else number
            count = int(digits) if digits.isascii() and digits.isdigit() and int(digits) < 2**64 else 0
            length += count - 1 if count > 1 and length > 0 else 0
            number, inside = "", False
        elif inside:
            number += c
        else:
            length += 1
    return length


def expansions(draw, times):
    for text in type_texts(draw, times):
        if expanded_length(text) < 1_000_000:
            yield f"expand {shown(text.encode('latin-1'))}"


def structures(draw, times):
    """`?` items behind a TYPE of each kind: sizes 0 to 17 and repeats 0 to 4 for some, random ones for all that expand to 256 characters or fewer."""
    for text in ("f", "Ff", "x", "bBsS", "LLLfffs", "qQ", "f[3]", "dj[2]J"):
        grid = ((ord("?"), size, repeat, draw.randbytes(size * repeat)) for size in range(18) for repeat in range(5))
        for question in ask_items(grid, 4000):
            yield ask_walk(one(b"TYPE", ord("c"), text.encode()) + bytes.fromhex(question.split()[2]))
    for text in type_texts(draw, times):
        if not 0 < len(text) < 255 or expanded_length(text) > 256:
            continue
        size, repeat = draw.randrange(1, 40), draw.randrange(1, 5)
        typed = one(b"TYPE", draw.choice(b"ccF"), text.encode("latin-1") + bytes(draw.randrange(2)))
        yield ask_walk(typed + item(b"ABCD", ord("?"), size, repeat, draw.randbytes(size * repeat)))


# ---- payloads

SHORT_PARTS = [header(*fields, key) for key, *fields in (
    (b"STRM", 0, 1, 0), (b"STRM", 0, 1, 4), (b"STRM", 0, 4, 2), (b"STRM", 0, 2, 8), (b"GYRO", 0x73, 2, 1), (b"TYPE", 0x63, 1, 1),
    (b"ABCD", 0x3F, 1, 4), (b"ABCD", 0x42, 0, 3))] + [b"f", b"\0\0\0", b"fLs[", b"\0\0\0\0\0\0\0"]


def short_walks(draw, times):
    """All payloads of up to 3 of these parts (of up to 4 in a long run): containers, rows, TYPE, empty items, bytes of 1, 3, 4 and 7."""
    for count in range(4 if times == 1 else 5):
        for parts in itertools.product(SHORT_PARTS, repeat=count):
            yield b"".join(parts)


def fields_of_length(draw, length):
    """A size and a repeat that make a length, or nearly."""
    sizes = [size for size in range(1, 256) if length % size == 0 and length // size < 65536]
    size = draw.choice(sizes)
    return size, length // size


def random_item(draw, depth):
    """An item of any kind; in a few its padding is other bytes."""
    kind = draw.random()
    key = draw.choice(GROUP_KEYS + OTHER_TAG_KEYS + STRANGE_KEYS).encode() if draw.random() < 0.95 else draw.randbytes(4)
    if kind < 0.25 and depth > 0:
        payload = random_level(draw, depth - 1)
        key, data_type = draw.choice((b"STRM", b"DEVC", key)), 0
    elif kind < 0.35:
        return header(draw.choice((0, 0x63, 0x73, 0x3F)), draw.choice((0, 1, 7)), 0, draw.choice((key, b"TYPE", b"STRM")))
    elif kind < 0.5:
        key, data_type = b"TYPE", draw.choice(b"cccccFsB")
        payload = draw.choice((b"f", b"fff", b"Lf[2]", b"x", b"sS\0\0", b"\0", b"bB\0"))
    elif kind < 0.65:
        data_type, payload = ord("?"), draw.randbytes(draw.randrange(1, 25))
    else:
        data_type, payload = draw.choice(TYPES if draw.random() < 0.9 else range(1, 256)), draw.randbytes(draw.randrange(1, 33))
    if not payload:
        return header(data_type, 1, 0, key)
    size, repeat = (len(payload), 1) if len(payload) < 256 and draw.random() < 0.4 else fields_of_length(draw, len(payload))
    padding = bytes(-len(payload) % 4) if draw.random() < 0.8 else draw.randbytes(-len(payload) % 4)
    return header(data_type, size, repeat, key) + payload + padding


def random_level(draw, depth):
    """A few items; in some the last one lacks its padding, and in a few bytes are left over."""
    level = b"".join(random_item(draw, depth) for _ in range(draw.choice((0, 1, 1, 2, 2, 3, 4, 6))))
    if draw.random() < 0.3:
        level += one(b"ABCD", ord("B"), draw.randbytes(draw.randrange(1, 6))).rstrip(b"\0") or b""
    return level + draw.randbytes(draw.randrange(1, 8)) if draw.random() < 0.06 else level


def damaged(draw, payload):
    """A copy with a byte changed, cut off, put in or taken out."""
    at = draw.randrange(len(payload) + 1)
    way = draw.randrange(4)
    if way == 0:
        return payload[:at]
    if way == 1:
        return payload[:at] + draw.randbytes(1) + payload[at:]
    if way == 2:
        return payload[:at] + payload[at + 1 :]
    return payload[:at] + draw.choice((b"\0", b"\1", b"\xff", draw.randbytes(1))) + payload[at + 1 :]


def nested(depth, inner):
    """Containers round an item."""
    for _ in range(depth):
        inner = header(0, 1, len(inner), b"STRM") + inner
    return inner


def random_walks(draw, times):
    """Trees of items to a depth of 5, as they are and damaged; bytes of no order; as many containers as are accepted."""
    for depth in range(17):
        yield nested(depth, one(b"GYRO", ord("B"), b"\7"))
        yield nested(depth, b"")
    for _ in range(400 * times):
        payload = random_level(draw, draw.randrange(6))
        if len(payload) < 3000:
            yield payload
            for _ in range(draw.choice((0, 1, 2))):
                payload = damaged(draw, payload)
                yield payload
    for _ in range(50 * times):
        yield draw.randbytes(draw.randrange(40))


def payloads(draw, times):
    yield from short_walks(draw, times)
    yield from random_walks(draw, times)


def description_samples(_):
    """The samples of the GPMF description: padding, a device, a stream of acceleration, a structure; alone and in one device."""
    colours = item(b"RGB8", ord("B"), 3, 3, bytes(range(1, 10)))
    device = [one(b"DVID", ord("L"), bytes.fromhex("00001001")), item(b"DVNM", ord("c"), 1, 6, b"Camera")]
    acceleration = [one(b"SCAL", ord("s"), bytes.fromhex("01a2")), one(b"SIUN", ord("c"), b"m/s\xb2"), item(b"ACCL", ord("s"), 6, 2, bytes.fromhex("0001fffe7fff800000000102"))]
    structure = [item(b"TYPE", ord("c"), 1, 5, b"Lffff"), item(b"FACE", ord("?"), 20, 2, b"".join(struct.pack(">I4f", n, 0.5, -0.25, 1e9, n) for n in (1, 2)))]
    payloads = [colours, stream(device), stream(acceleration), stream(structure), stream([*device, stream(acceleration), stream(structure), colours])]
    return (ask_walk(payload, forced) for payload in payloads for forced in (0, 1))


def walks(draw, times):
    return (ask_walk(payload, forced) for payload in payloads(draw, times) for forced in (0, 1))


def many_rows(draw, times):
    """More rows than the quick pass of `metadata` makes apart, 128, in streams: the last item of each names its group. Streams round 127 to 130 rows
    and more; one in another, two in a third; the last item a row, empty, or a stream; bytes left over behind it, and an item that runs past the end; trees of streams."""
    keys = [key.encode() for key in GROUP_KEYS + OTHER_TAG_KEYS + STRANGE_KEYS]
    def readings(count):
        return [one(draw.choice(keys), ord("B"), draw.randbytes(1)) for _ in range(count)]
    def tree(count, depth):
        parts = []
        while count > 0:
            some = draw.randrange(1, count + 1)
            parts += [tree(some, depth - 1)] if depth > 0 and draw.random() < 0.5 else readings(some)
            count -= some
        return stream(parts)
    def made():
        for count in (127, 128, 129, 130, 200):
            yield stream(readings(count))
        for count in (129, 140):
            yield stream([*readings(count), header(ord("s"), 6, 0, b"GYRO")])
            yield stream([*readings(70), stream(readings(count - 70))])
            yield stream([stream(readings(70)), stream([*readings(count - 70), header(0, 1, 0, b"STRM")]), *readings(1)])
            yield stream([*readings(count), draw.randbytes(3)])
            yield stream([*readings(count), header(ord("B"), 1, 5, b"GYRO"), b"1234"])
        for _ in range(8 * times):
            yield tree(draw.randrange(129, 300), 4)
    return (ask_walk(payload) for payload in made())


def last_items(draw, times):
    return (f"last {shown(payload)}" for payload in payloads(draw, times))


# ---- axes, quaternions, stamps, averages, raw files

SIGNED_ORDERS = ["".join(c.lower() if small >> i & 1 else c for i, c in enumerate(order)) for order in itertools.permutations("XYZ") for small in range(8)]


def matrices(draw, times):
    """All 48 x 48 signed orders; other letters, the same letter twice, signs and blanks; lengths that differ (equal ones other than 3: DIFFERENCES, 18)."""
    pairs = [(a, b) for a in SIGNED_ORDERS for b in SIGNED_ORDERS]
    letters = "XYZxyzAa@[`{0 \0\x7f"
    pairs += [("".join(draw.choices(letters, k=3)), "".join(draw.choices(letters, k=3))) for _ in range(300 * times)]
    pairs += [("", "XYZ"), ("XYZ", ""), ("", ""), ("XY", "XYZ"), ("XYZ", "XYZX"), ("X", "XY")]
    return (f"matrix {shown(a.encode())} {shown(b.encode())}" for a, b in pairs)


SINGLES = [0, 0x80000000, 0x3F000000, 0x3F000001, 0x3EFFFFFF, 0xBF000000, 0xBF000001, 0xBEFFFFFF, 0x3F800000, 0xBF800000, 0x7F800000, 0xFF800000, 0x7FC00000, 0xFFC00001, 1]


def backs(draw, times):
    """Nine f32 of 0.5, its neighbours, signs, infinities and NaNs; random ones; 0 to 12 numbers."""
    lists = [[draw.choice(SINGLES) for _ in range(9)] for _ in range(600 * times)]
    lists += [[draw.choice((0, 0x3F800000, 0xBF800000)) for _ in range(9)] for _ in range(200 * times)]
    lists += [[draw.randrange(2**32) for _ in range(9)] for _ in range(100 * times)]
    lists += [[0x3F800000] * count for count in range(13)]
    return (f"back {shown(b''.join(n.to_bytes(4, 'big') for n in numbers))}" for numbers in lists)


def cut_files(draw, times):
    """Files of the letters of DEVC, of DEVC at all small distances and at the borders of blocks, and of packets."""
    for length in range(4 if times == 1 else 6):
        for letters in itertools.product((b"DEVC", b"D", b"EVC", b"12345"), repeat=length):
            yield b"".join(letters)
    for between in range(16):
        for behind in (0, 4, 5, 9):
            yield b"DEVC" + b"x" * between + b"DEVC" + b"y" * behind
    for place in range(20, 420, 3 if times == 1 else 1):
        yield b"x" * place + b"DEVC12345"
    for _ in range(200 * times):
        yield b"".join(draw.choice((b"DEVC", b"DEV", b"D", b"C", b"1234", draw.randbytes(draw.randrange(9)))) for _ in range(draw.randrange(1, 40)))


def cuts(draw, times):
    return (f"cuts {shown(file)}" for file in cut_files(draw, times))


def packet_files(draw, times):
    """Raw files of packets that are read and damaged."""
    for _ in range(200 * times):
        yield b"".join(b"DEVC\0\1\0\0" + (damaged(draw, payload) if draw.random() < 0.3 else payload)
                       for payload in (random_level(draw, draw.randrange(4)) for _ in range(draw.randrange(1, 5))) if len(payload) < 1000)


def packets_read(draw, times):
    return (f"packets {shown(file)}" for file in packet_files(draw, times))


def stream(items):
    """A container of items."""
    payload = b"".join(items)
    return header(0, 1, len(payload), b"STRM") + payload if len(payload) < 65536 else b""


def quaternion_packets(draw, times):
    """CORI and IORI streams with and without a SCAL, one before or behind another, of each type; x of -32,768; scales of 0 and below."""
    for _ in range(300 * times):
        streams = []
        for _ in range(draw.choice((1, 1, 2, 3))):
            count = draw.randrange(1, 4)
            numbers = b"".join(draw.choice((b"\x80\0", b"\x80\1", b"\x7f\xff", b"\0\0", draw.randbytes(2))) for _ in range(4 * count))
            size = draw.choice((8, 8, 8, 9, 12))  # the size is not looked at
            data = item(draw.choice((b"CORI", b"IORI")), draw.choice(b"sssssS"), size, count, numbers.ljust(size * count, b"\5"))
            scale = draw.choice((b"", b"", one(b"SCAL", ord("s"), draw.choice((b"\x7f\xff", b"\0\0", b"\0\3", b"\xff\xfe", draw.randbytes(2)))),
                                 one(b"SCAL", ord("s"), draw.randbytes(3)),
                                 one(b"SCAL", ord("l"), draw.randbytes(4)), item(b"SCAL", ord("s"), 2, 2, draw.randbytes(4)), one(b"SCAL", ord("S"), draw.randbytes(2))))
            streams.append(stream([scale, data]))
        yield b"".join(streams)


def quaternions_scaled(draw, times):
    return (f"quat {shown(payload)}" for payload in quaternion_packets(draw, times))


def oriented_packets(draw, times):
    """Streams of GYRO, ACCL and MAGN with ORIN and ORIO of three ASCII letters or of other types, and MTRX of each shape."""
    def axes(key):
        text = draw.choice(SIGNED_ORDERS).encode() if draw.random() < 0.9 else bytes(draw.choices(b"XYZxAa", k=3))
        return draw.choice((item(key, ord("c"), 1, 3, text), item(key, ord("c"), 3, 1, text), one(key, ord("F"), text), one(key, ord("B"), text), item(key, ord("c"), 2, 2, text + b"\0"), b""))
    def matrix():
        signs = b"".join(struct.pack(">f", draw.choice((0.0, 0.0, 1.0, -1.0, 0.5, 0.75))) for _ in range(9))
        turned = b"".join(struct.pack(">f", n) for n in draw.choice(((0, -1, 0, 1, 0, 0, 0, 0, 1), (1, 0, 0, 0, 1, 0, 0, 0, 1))))
        return draw.choice((b"", b"", b"", item(b"MTRX", ord("f"), 36, 1, turned), item(b"MTRX", ord("f"), 36, 1, signs), item(b"MTRX", ord("f"), 4, 9, turned), item(b"MTRX", ord("f"), 12, 3, turned),
                            item(b"MTRX", ord("l"), 36, 1, turned), item(b"MTRX", ord("f"), 72, 1, turned * 2), item(b"MTRX", ord("q"), 36, 1, bytes.fromhex("00010000") * 9)))
    for _ in range(400 * times):
        streams = []
        for _ in range(draw.choice((1, 1, 2))):
            parts = [axes(b"ORIN"), axes(b"ORIO"), matrix()]
            draw.shuffle(parts)
            streams.append(stream([*parts, item(draw.choice((b"GYRO", b"ACCL", b"MAGN")), ord("s"), 6, 1, draw.randbytes(6))]))
        yield b"".join(streams)


def unread_axes():
    """GYRO streams whose MTRX, ORIN or ORIO is none that serves: dates, an identifier, texts and structures that cannot be read, and a structure that can."""
    orin, orio = item(b"ORIN", ord("c"), 1, 3, b"YxZ"), item(b"ORIO", ord("c"), 1, 3, b"XYZ")
    def structure(key, text, bytes_there):
        return one(b"TYPE", ord("c"), text) + one(key, ord("?"), bytes(bytes_there))
    def values(key):
        return (one(key, ord("U"), b"2"), one(key, ord("U"), b"x40229120000.000"), one(key, ord("G"), b"2222"), item(key, ord("c"), 2, 2, b"\xb2\0\xb2\0"),
                structure(key, b"f[9]", 4), structure(key, b"f[257]", 4), structure(key, b"f[9]", 36))
    for parts in [*((m,) for m in values(b"MTRX")), *((orin, orio, m) for m in values(b"MTRX")), *((i, orio) for i in values(b"ORIN")), *((orin, o) for o in values(b"ORIO"))]:
        yield stream([*parts, item(b"GYRO", ord("s"), 6, 1, bytes(6))])


def orientations(draw, times):
    return (f"oriented {shown(payload)}" for payload in itertools.chain(oriented_packets(draw, times), unread_axes()))


def stamped_packets(draw, times):
    """GYRO streams with STMP and TICK of each shape, in one stream or two, readable dates, and none."""
    def clock():
        return draw.choice((b"", one(b"STMP", ord("J"), draw.randbytes(8)[1:].rjust(8, b"\0")), one(b"STMP", ord("L"), draw.randbytes(4)), item(b"STMP", ord("J"), 8, 2, bytes(16)),
                            one(b"STMP", ord("U"), draw.choice((b"240229120000.000", b"230229120000.000", b"700101000000.000"))), one(b"STMP", ord("j"), bytes(8)),
                            one(b"STMP", ord("J"), bytes(7) + draw.randbytes(draw.randrange(2, 9))), one(b"TICK", ord("L"), draw.randbytes(draw.randrange(5, 8))),
                            one(b"TICK", ord("L"), draw.randbytes(4)), one(b"TICK", ord("l"), draw.randbytes(4)), item(b"TICK", ord("L"), 4, 2, draw.randbytes(8)), one(b"TICK", ord("J"), bytes(8))))
    for _ in range(400 * times):
        yield b"".join(stream([clock(), clock(), item(b"GYRO", ord("s"), 6, 1, draw.randbytes(6))]) for _ in range(draw.choice((1, 1, 2))))


def stamps(draw, times):
    return (f"stamp {draw.choice((b'GYRO', b'GYRO', b'ACCL')).hex()} {shown(payload)}" for payload in stamped_packets(draw, times))


def averages(draw, times):
    """Lists of packets: counts of 0 and more, stamps that rise, stand still and fall, some missing; durations of 0, below it and of all sizes."""
    for _ in range(500 * times):
        stamp, words, last = draw.choice((draw.randrange(2**40), 2**42 - 2_500_000)), [], 0.0
        for _ in range(draw.choice((0, 1, 2, 2, 3, 4, 6, 12, 40))):
            stamp = max(0, min(2**42 - 1, stamp + draw.choice((1_000_000, 1_001_001, 0, -5, draw.randrange(-10**6, 10**7)))))
            stamped = draw.random() < 0.7
            duration = draw.choice((1001.0, 1000.0, 1001.0, 0.0, -3.5, draw.random() * 2000, draw.random() * 1e300, 5e-324))
            missing = int(last > 1e-3 and last < 1e9 and draw.random() < 0.15)  # else the Rust's own sum of times may not tell
            words.append(f"{draw.choice((0, 1, 198, 200, draw.randrange(2000), 40000))}:{stamp if stamped else '-'}:{struct.pack('>d', duration).hex()}:{missing}")
            last = duration if stamped else last
            if last > 1e12:
                break
        yield " ".join(["average", *words])


def no_questions(_):
    """Lines that are no question; the empty one has no answer."""
    yield from ("header", "header ", "header 0", "header 0 ", "header 0 0", "header 0 0g", "header 0 0G", "header 0 4A", "header 0 00 ")
    yield from ("header  0 00", "header 0  00", " header 0 00", "header 0 00 00", "header -1 00", "header +1 00", "header a 00", "header 0x0 00")
    yield from ("header 18446744073709551616 -", "header 99999999999999999999999 -", "header 00000000000000000000000000 -", "headers 0 00", "heade 0 00")
    yield from ("tag", "tag ", "tag -", "tag 4759524", "tag 4759524f4", "tag 4759524f4d", "tag 4759524F", "tag 4759524f 00", "tag +759524f", "tags 4759524f")
    yield from ("group", "group ", "group -", "group 4759524", "group 4759524f4", "group 4759524g", "group 4759524f 4759524f", "GROUP 4759524f")
    yield from ("last", "last ", "last 0", "last - -", "expand", "expand 0", "expand 5b 5b")
    yield from ("bogus", " ", "-", "0", "unknown", "ok", "\t", "header\t0\t00", "\xe9", "tag GYRO", "")


def no_walks(_):
    """Lines that are nearly a question of a walk."""
    yield from ("walk 0", "walk 2 -", "walk 00 -", "walk 1 ", "walk -", "walk 0 0", "walk 0 - -")


# The kinds of payloads that walks are asked of.
WALKS = {
    "types": every_type,
    "numbers": special_numbers,
    "quaternions": quaternions,
    "dates": dates,
    "texts": texts,
    "structures": structures,
    "samples": lambda draw, times: description_samples(draw),
    "walk": walks,
    "many": many_rows,
    "no-walk": lambda draw, times: no_walks(draw),
}


def asked_as(question):
    """The same payloads under another question; a kind's seed is the name behind the colon."""
    def asked(made):
        return lambda draw, times: (question + line.removeprefix("walk") for line in made(draw, times))
    return {f"{question}:{kind}": asked(made) for kind, made in WALKS.items()}


# The programs, and the kinds of questions that each answers.
LISTS = {
    "replay": {
        "header": lambda draw, times: [
            *short_payloads(draw), *whole_and_short(draw), *limits(draw), *far_places(draw), *random_headers(draw, times)],
        "tag": lambda draw, times: [f"tag {key.hex()}" for key in keys(draw, times)],
        "group": lambda draw, times: [f"group {key.hex()}" for key in keys(draw, times)],
        "expand": expansions,
        "last": last_items,
        "none": lambda draw, times: no_questions(draw),
    },
    "replay_rows": asked_as("rows"),
    "replay_kinds": asked_as("kinds"),
    "replay_values": asked_as("values"),
    "replay_axes": {"matrix": matrices, "back": backs},
    "replay_oriented": {"oriented": orientations},
    "replay_packets": {"cuts": cuts, "packets": packets_read},
    "replay_quaternions": {"quat": quaternions_scaled},
    "replay_stamps": {"stamp": stamps},
    "replay_averages": {"average": averages},
}
KINDS = {kind: made for kinds in LISTS.values() for kind, made in kinds.items()}


def main():
    ask = argparse.ArgumentParser(description=__doc__, formatter_class=argparse.RawDescriptionHelpFormatter)
    ask.add_argument("--seed", type=int, default=1)
    ask.add_argument("--times", type=int, default=1)
    ask.add_argument("kinds", nargs="+", metavar="KIND", help=f"some of {' '.join(KINDS)}, or a program's name for all of its own")
    asked = ask.parse_args()
    for unknown in set(asked.kinds) - set(KINDS) - set(LISTS):
        ask.error(f"no kind {unknown}")
    said = [f"seed {asked.seed}"]
    for kind in [kind for name in asked.kinds for kind in LISTS.get(name, [name])]:
        made = KINDS[kind](random.Random(f"{asked.seed} {kind.rpartition(':')[2]}"), asked.times)
        questions = list(dict.fromkeys(made))  # each once
        sys.stdout.buffer.write("".join(q + "\n" for q in questions).encode("utf-8"))
        said.append(f"{kind} {len(questions)}")
    print(", ".join(said), file=sys.stderr)


if __name__ == "__main__":
    main()
