#!/usr/bin/env python3
"""newer_camera.py SEED COUNT: an old reader meets a newer camera (demand 3), by running our programs `take`, `replay_rows` and `replay_values`.

Makes COUNT payloads with groups named by containers and puts new items in front of items that the walk reaches, at any depth. Each payload is read
three times: as it was, with the new items, and with other payload bytes in the new items. The rows that `./gpmf take` lists must be, one by one and
in order: every old row with its group, key, type, size, repeat and depth, its bytes at its new place; and one for each new item with a payload, in the
group of its level; and the same rows again with the other bytes. The headers must be more by one for each new item.
Where new keys are unlike all old ones, `./gpmf replay_rows` and `./gpmf replay_values` must also give every old item as it was, with its value. Other
commands than ./gpmf are given by TAKE, REPLAY_ROWS and REPLAY_VALUES in the environment. Exit 1 at a difference, with the first three."""
import os
import random
import subprocess
import sys

OLD_KEYS = b"GYRO ACCL GRAV WBAL ISOE SHUT MWET IORI CORI AALP SIUN MTRX SCAL STMP STNM DVNM TMPC TSMP ORIN ORIO TICK ABCD EFGH".split()
CONTAINER_KEYS = (b"STRM", b"GYRO", b"NEST")  # no DEVC, by which `take` would cut
TYPES = b"bBsSlLfdqQjJcFGU?xZ"
TYPE_TEXTS = (b"B", b"ss", b"f[3]", b"L", b"Lfs", b"c[4]B")
NEW = b"~"  # a new item's key begins so, and no old one does
AT_ONCE = 128  # payloads below 8,000 bytes, so that their questions have no more than 2,097,152


def fields(draw, length):
    """A size and a repeat whose product is a length, any that a header can write."""
    if length == 0:
        return draw.choice(((0, 7), (7, 0), (1, 0)))
    return draw.choice([(size, length // size) for size in range(1, 256) if length % size == 0 and length // size < 65536])


def padding(draw, length):
    """Padding to four bytes, of zeros or of any bytes."""
    return draw.randbytes(-length % 4) if draw.random() < 0.5 else bytes(-length % 4)


def written(key, data_type, size, repeat, payload):
    return key + bytes([data_type, size]) + repeat.to_bytes(2, "big") + payload


class Item:
    """An old item: a payload, or the items inside; its padding may be cut short where it is the last of its level."""

    def __init__(self, draw, depth):
        self.inside = None
        if depth > 0 and draw.random() < 0.45:
            self.key, self.data_type = draw.choice(CONTAINER_KEYS), 0
            self.inside = level(draw, depth - 1, least=0 if draw.random() < 0.1 else 1)
        elif draw.random() < 0.15:
            self.key, self.data_type = b"TYPE", draw.choice(b"ccF")
            self.payload = draw.choice(TYPE_TEXTS) + bytes(draw.randrange(3))
        else:
            self.key, self.data_type = draw.choice(OLD_KEYS), draw.choice(TYPES)
            self.payload = draw.randbytes(draw.choice((0, 1, 2, 4, 6, 12, 16, draw.randrange(40))))
        self.kept = 3  # bytes of padding at most
        if self.inside is None:
            self.size, self.repeat = fields(draw, len(self.payload))

    def bytes(self, draw):
        return written(self.key, self.data_type, self.size, self.repeat, self.payload) + padding(draw, len(self.payload))[: self.kept]

    def has_row(self):
        """A TYPE of one text has none, and nothing of length 0 has."""
        one_text = self.data_type == ord("F") or self.data_type == ord("c") and 1 in (self.size, self.repeat)
        return len(self.payload) > 0 and not (self.key == b"TYPE" and one_text)


def level(draw, depth, least=0):
    """Some old items."""
    items = [Item(draw, depth) for _ in range(max(least, draw.choice((0, 1, 1, 2, 3, 4))))]
    if items and draw.random() < 0.3:
        items[-1].kept = draw.randrange(3)
    return items


class New:
    """A new item, whole and padded, no container and not keyed TYPE, in a group; unlike says that no old item has such a key."""

    def __init__(self, draw, group, number, unlike):
        self.group = group
        self.key = NEW + number.to_bytes(3, "big") if unlike else draw.choice(OLD_KEYS + [draw.randbytes(4)])
        self.size = draw.choice((0, 1, 2, 4, draw.randrange(30), 255))
        self.repeat = draw.choice((0, 1, 1, 2, 3) if self.size < 200 else (0, 1))
        self.data_type = draw.choice(TYPES + b"\1\xff")
        if self.key == b"TYPE":
            self.key = b"NEWT"

    def bytes(self, draw):
        payload = draw.randbytes(self.size * self.repeat)
        return written(self.key, self.data_type, self.size, self.repeat, payload) + padding(draw, len(payload))


def read_thrice(draw, items, group, rate, unlike, news, depth=0):
    """A level as it was, with new items and with other bytes in them, and its rows as they must be listed: `None` for an old one."""
    versions, rows = [b"", b"", b""], []
    for old in items:
        while draw.random() < rate:
            new = New(draw, group, len(news), unlike)
            news.append(new)
            versions = [versions[0], versions[1] + new.bytes(draw), versions[2] + new.bytes(draw)]
            if new.size * new.repeat:
                rows.append(f"{group} {shown_key(new.key)} {new.data_type} {new.size} {new.repeat} {depth}")
        if old.inside is None:
            made = [old.bytes(draw)] * 3
            rows += [None] * old.has_row()
        else:
            named = shown_key(old.inside[-1].key) if old.inside else "-"
            insides, inner_rows = read_thrice(draw, old.inside, named, rate, unlike, news, depth + 1)
            fields_before, fields_after = fields(draw, len(insides[0])), fields(draw, len(insides[1]))
            pad = padding(draw, len(insides[0]))[: old.kept]
            made = [written(old.key, 0, *size_and_repeat, inside) + pad
                    for inside, size_and_repeat in zip(insides, (fields_before, fields_after, fields_after))]
            rows += inner_rows
        versions = [version + more for version, more in zip(versions, made)]
    return versions, rows


def shown_key(key):
    return key.decode() if all(33 <= byte <= 126 for byte in key) else "x" + key.hex()


class Meeting:
    """A payload in its three versions, left-over bytes behind the last item in some; the rows that it must have; its new items."""

    def __init__(self, draw):
        self.unlike, self.news = draw.random() < 0.5, []
        items = level(draw, draw.randrange(5))
        rate = draw.choice((0.1, 0.4, 0.7))
        versions, self.rows = read_thrice(draw, items, "-", rate, self.unlike, self.news)
        rest = draw.randbytes(draw.randrange(8)) if draw.random() < 0.2 and not (items and items[-1].kept < 3) else b""
        self.versions = [version + rest for version in versions]
        self.usable = len(versions[1]) < 8000 and all(b"DEVC" not in b"DEVC"[1:] + version + b"DEV" for version in self.versions)

    def is_met(self, listed):
        """Whether the three listings are what an old reader must make of it."""
        before, after, again = ([line.split(" ", 1) for line in lines[1:]] for lines in listed)
        if after != again or listed[1][0] != listed[2][0] or len(after) != len(self.rows):
            return False
        old = iter(before)
        for (place, row), wanted in zip(after, self.rows):
            if wanted is None:
                place_before, wanted = next(old)
                if bytes_at(self.versions[0], place_before, row) != bytes_at(self.versions[1], place, row):
                    return False
            if row != wanted:
                return False
        return next(old, None) is None and headers(listed[1]) == headers(listed[0]) + len(self.news)


def bytes_at(payload, place, row):
    """The bytes of a listed row's item: its header and its payload."""
    size, repeat = row.split(" ")[3:5]
    return payload[int(place) : int(place) + 8 + int(size) * int(repeat)]


def headers(lines):
    return int(lines[0].split(" ")[3])


def command(name):
    return os.environ[name.upper()].split() if name.upper() in os.environ else ["./gpmf", name]


def listings(meetings):
    """What `take` prints of each payload, in a raw file of them all: its lines below that of the packet."""
    file = b"".join(b"DEVC\0\0\0\0" + version for meeting in meetings for version in meeting.versions)
    printed = subprocess.run(command("take"), input=file, stdout=subprocess.PIPE, check=True).stdout.decode()
    return [packet.splitlines()[1:] for packet in printed[: printed.rindex("packets ")].split("packet ")[1:]]


def answers(question, payloads):
    """What the program of a question answers of each payload, word by word; as many at once as it takes."""
    said = []
    for start in range(0, len(payloads), AT_ONCE):
        asked = "".join(f"{question} 0 {payload.hex() or '-'}\n" for payload in payloads[start : start + AT_ONCE])
        said += subprocess.run(command(f"replay_{question}"), input=asked.encode(), stdout=subprocess.PIPE, check=True).stdout.decode().splitlines()
    return [line.split(" ") for line in said]


def entries(payloads):
    """The entries of each payload's map, with their values: the items of its rows that are kept, but for the new ones."""
    both = zip(answers("rows", payloads), answers("values", payloads), strict=True)
    items = [zip(rows[2:], values[1:], strict=True) for rows, values in both]
    return [[(row, value) for row, value in words if row.endswith(",1") and not row.split(",")[2].startswith(NEW.hex())] for words in items]


def main():
    seed, count = sys.argv[1], int(sys.argv[2])
    draw, meetings = random.Random(seed), []
    while len(meetings) < count:
        meeting = Meeting(draw)
        if meeting.usable and meeting.versions[0]:
            meetings.append(meeting)
    listed = listings(meetings)
    assert len(listed) == 3 * count and all(lines and lines[0].startswith("rows ") for lines in listed[::3]), "each payload is accepted"
    bad = [meeting for meeting, lines in zip(meetings, zip(listed[::3], listed[1::3], listed[2::3])) if not meeting.is_met(lines)]
    unlike = [meeting for meeting in meetings if meeting.unlike]
    old_entries = [entries([meeting.versions[i] for meeting in unlike]) for i in range(3)]
    bad += [meeting for meeting, before, after, again in zip(unlike, *old_entries, strict=True) if not before == after == again]
    rows = sum(len(lines) - 1 for lines in listed[::3])
    new = sum(row is not None for meeting in meetings for row in meeting.rows)
    print(f"seed {seed}: {count} payloads, each accepted; {rows} old rows, {new} new ones; {sum(map(len, old_entries[0]))} entries with values; {len(bad)} differences")
    print("\n\n".join("\n".join(version.hex() for version in meeting.versions) for meeting in bad[:3]), end="")
    sys.exit(bool(bad))


if __name__ == "__main__":
    if len(sys.argv) != 3:
        sys.exit(__doc__)
    main()
