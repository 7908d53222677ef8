#!/usr/bin/env python3
"""tables.py FOLDER: writes into FOLDER what the mixer's examples must print of the takes.

Every number comes from the table in README.md. Which packets are refused, and what stands before the place, comes from the `.take` files, which a model wrote."""
import pathlib
import re
import sys

HERE = pathlib.Path(__file__).resolve().parent
HEADER = "second  main wet  all wet  confidence  level dBFS  peak dBFS  packet\n"


def seconds():
    """Of each second the six columns of the table: five lists of four numbers, and the two scales."""
    rows = [line.strip("|").split("|") for line in (HERE / "README.md").read_text().splitlines() if re.match(r"\|( -?\d+)+ \|( -?\d+)+ \|", line)]
    return {int(row[0]): [[int(number) for number in cell.split()] for cell in row[1:]] for row in rows}


def wet(readings):
    return f"{sum(readings)}/{len(readings)}"


def mean(readings, scale=1):
    return f"{sum(reading / scale for reading in readings) / len(readings):.1f}"


def table(take):
    """One line a packet; `take` is what the program of that name prints."""
    known, lines = seconds(), HEADER
    for packet in re.split(r"^packet ", take, flags=re.M)[1:]:
        number = int(packet.split()[0])
        main, every, confidence, level, peak, scales = known[number]
        refused = re.search(r"^refused .*", packet, re.M)
        first = [wet(main), wet(every), mean(confidence)] if " MWET MWET " in packet else ["-"] * 3
        last = [mean(level, scales[0]), mean(peak, scales[1])] if " AALP AALP " in packet else ["-"] * 2
        lines += "{:>6}  {:>8}  {:>7}  {:>10}  {:>10}  {:>9}  {}\n".format(number, *first, *last, refused.group() if refused else "read")
    return lines


if __name__ == "__main__":
    if len(sys.argv) != 2:
        sys.exit("usage: tables.py FOLDER")
    for name in "take", "damaged":
        (pathlib.Path(sys.argv[1]) / f"{name}.table").write_text(table((HERE / f"{name}.take").read_text()))
