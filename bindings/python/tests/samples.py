"""What the tests share: the repository's files, and prints built out of what the module reads."""
import pathlib
import re
import sys

import gpmf

ROOT = pathlib.Path(__file__).resolve().parents[3]
SAMPLES = ROOT / "samples"
NAMES = sorted(file.stem for file in SAMPLES.glob("*.raw"))
sys.path.insert(0, str(ROOT / "oracle"))
import take_model  # noqa: E402 # a model of the prints that was written from document 01, and not from the programs

take_model.MOST_BYTES, take_model.ROOM = gpmf.MOST_BYTES, gpmf.MOST_ROWS


def raw(name):
    return (SAMPLES / f"{name}.raw").read_bytes()


def stored(name):
    return (SAMPLES / name).read_text()


def seconds():
    """The table of README.md: of each second the three columns of MWET and the two of AALP, a list each, and the two scales of AALP."""
    lines = [line.strip("|").split("|") for line in stored("README.md").splitlines() if re.match(r"\|( -?\d+)+ \|( -?\d+)+ \|", line)]
    return {int(line[0]): [[int(number) for number in cell.split()] for cell in line[1:]] for line in lines}


def listed(reading):
    """The listing of a reading, out of its rows."""
    lines = [f"{row.place} {row.group or '-'} {row.key} {ord(row.type)} {row.size} {row.repeat} {row.depth}\n" for row in reading]
    return f"rows {len(reading)} headers {reading.headers}\n" + "".join(lines)


def refused(refusal):
    return f"refused {refusal.number} at {refusal.place}\n"


def packet_text(packet):
    how = listed(packet.reading) if packet.refusal is None else f"{refused(packet.refusal)}front {listed(packet.front())}"
    return f"packet {packet.number} at {packet.start} bytes {packet.length}\n{how}"


def take_text(packets, whole=False):
    """What `take` prints, out of packets."""
    packets = list(packets)
    read = [packet for packet in packets if packet.refusal is None]
    printed = "".join(map(packet_text, read if whole else packets))
    return f"{printed}packets {len(packets)} read {len(read)} refused {len(packets) - len(read)}\n"


def item(key, letter, size, repeat, payload):
    """An item, with its padding."""
    return key.encode() + letter.encode("latin-1") + bytes([size]) + repeat.to_bytes(2, "big") + payload + bytes(-len(payload) % 4)
