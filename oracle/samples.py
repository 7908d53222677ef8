#!/usr/bin/env python3
"""samples.py: asks the built oracle of every packet in samples/, of what stands before each refusal, and of the samples as payloads.
At how many places it reads a header, its items with their bytes and its refusals must be those of take_model.py, from
which the stored prints come, and every value must be readable. Exit 1 at a difference."""
import pathlib
import subprocess
import sys

sys.dont_write_bytecode = True
import take_model  # noqa: E402

HERE = pathlib.Path(__file__).resolve().parent


def payloads():
    for sample in sorted((HERE.parent / "samples").glob("*.raw")):
        file = sample.read_bytes()
        for name, payload in [("as a payload", file), *((f"packet at {start}", file[start:end]) for start, end in take_model.packets(file))]:
            yield f"{sample.name}, {name}", payload
            try:
                take_model.listing(payload)
            except take_model.Refused as why:
                yield f"{sample.name}, {name}, before its refusal", payload[: why.args[1]]


def by_model(payload):
    """Headers and items; of a group's items with one key the Rust keeps the last."""
    rows = []
    try:
        headers = take_model.walk(payload, 0, len(payload), 0, None, rows)
    except take_model.Refused:
        return "err"
    items = {(group.hex() if group else "-", key.hex()): payload[at : at + 8 + size * repeat].hex() for at, group, key, _, size, repeat, _ in rows}
    return headers, items


def by_rust(answer):
    if answer == "err":
        return answer
    _, headers, *entries = answer.split()
    entries = [entry.split(",", 5) for entry in entries]
    unread = [entry for entry in entries if entry[3] == "-"]
    return int(headers[2:]), {(group, key): raw for group, _, key, _, raw, _ in entries}, *unread


names, asked = zip(*payloads())
questions = "".join(f"walk 0 {payload.hex() or '-'}\n" for payload in asked)
said = subprocess.run([HERE / "target/release/gpmf-oracle"], input=questions.encode(), stdout=subprocess.PIPE, check=True).stdout.decode().splitlines()
wrong = [name for name, payload, answer in zip(names, asked, said, strict=True) if by_model(payload) != by_rust(answer)]
for name in wrong:
    print("a difference:", name)
print(f"{len(names)} payloads, {sum(answer == 'err' for answer in said)} of them refused, {len(wrong)} differences")
sys.exit(bool(wrong))
