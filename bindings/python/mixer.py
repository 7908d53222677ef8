#!/usr/bin/env python3
"""mixer.py FILE: which seconds of a raw take had a wet microphone (MWET), and the gain (AALP), as a table with a line for each packet.

A packet that is refused is not lost: the bytes before the refusal's place, read alone with the same room, are accepted. So what a damaged card still has of the
second is in the table, and the last column tells the refusal. samples/README.md describes each column."""
import sys
from typing import List, Optional

import gpmf

COLUMNS = "{:>6}  {:>8}  {:>7}  {:>10}  {:>10}  {:>9}  {}"
HEADER = COLUMNS.format("second", "main wet", "all wet", "confidence", "level dBFS", "peak dBFS", "packet")


def elements_of(reading: gpmf.Reading, group: str, tag: gpmf.Tag) -> Optional[List[List[gpmf.Number]]]:
    """The elements that a group has under a tag, row by row: none where they are refused, and None without such a row. All are asked for at once, since each by
    itself would go through a whole TYPE text, or through all texts."""
    row = reading.lookup(group, tag)
    try:
        return None if row is None else reading.elements(row)
    except gpmf.Refusal:
        return []


def columns_of(reading: gpmf.Reading, group: str, count: int) -> List[List[float]]:
    """The first columns of the readings of a group; empty where the readings are not there or are refused, or have fewer columns than that."""
    rows = elements_of(reading, group, gpmf.Tag.DATA)
    if not rows or len(rows[0]) < count:
        return [[] for _ in range(count)]
    return [[float(row[column]) for row in rows] if all(column < len(row) for row in rows) else [] for column in range(count)]


def scales_of(reading: gpmf.Reading, group: str, count: int) -> List[float]:
    """What each column is divided by: SCAL has one number for all columns, or one for each; without SCAL it is 1, and 0 where it cannot be read."""
    rows = elements_of(reading, group, gpmf.Tag.SCALE)
    if rows is None:
        return [1.0] * count
    wide = len(rows[0]) if rows else 0
    if wide == 0:
        return [0.0] * count
    places = [divmod(column if len(rows) * wide > 1 else 0, wide) for column in range(count)]
    return [float(rows[row][at]) if row < len(rows) and at < len(rows[row]) else 0.0 for row, at in places]


def share(numbers: List[float]) -> str:
    """How many numbers are not 0, and how many there are."""
    return f"{sum(number != 0 for number in numbers)}/{len(numbers)}" if numbers else "-"


def mean(numbers: List[float], scale: float) -> str:
    """The mean of numbers over their scale, with one digit behind the point, or a stroke."""
    if not numbers or scale == 0:
        return "-"
    total = 0.0
    for number in numbers:  # in order, as the examples in other languages add them; `sum` of later Pythons does not
        total += number / scale
    return f"{total / len(numbers):.1f}"


def line_of(packet: gpmf.Packet) -> str:
    """One line of the table."""
    reading, refusal = packet.front(), packet.refusal
    main, every, confidence = columns_of(reading, "MWET", 3)
    level, peak = map(mean, columns_of(reading, "AALP", 2), scales_of(reading, "AALP", 2))
    how = "read" if refusal is None else f"refused {refusal.number} at {refusal.place}"
    return COLUMNS.format(packet.number, share(main), share(every), mean(confidence, 1), level, peak, how)


def main() -> None:
    if len(sys.argv) != 2:
        print("usage: mixer.py FILE", file=sys.stderr)
        sys.exit(2)
    try:
        with gpmf.open_take(sys.argv[1]) as take:
            lines = [line_of(packet) for packet in take]
    except OSError as why:
        print(f"mixer.py: {sys.argv[1]}: {why.strerror or why}", file=sys.stderr)
        sys.exit(2)
    print(HEADER, *lines, sep="\n")


if __name__ == "__main__":
    main()
