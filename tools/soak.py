#!/usr/bin/env python3
"""Writes a scenario of `floor` for a long run: 64 ONUs at all distances under losses, drift, power cycles, cuts and late
reports. soak.py FRAMES [DRAW]. Each round trip stays between 3,392 and 35,392 bits and moves by at most a quarter of the guard in
all, so that no two bursts may overlap. An ONU that is in O1 has its signal back before long, as a real one would."""
import random
import sys

GUARD = 16
CHUNK = 20_000


def line(draw):
    yield "scenario soak"
    yield "feeder 3000"
    for port in range(64):
        yield f"onu {port} {0x4D55_4C4B_0000_0001 + port:016x} 392"
        if port:
            yield f"fibre {port} {31996 * port // 63}"
    yield f"setup {GUARD} aa55aa 0 places 52"
    for port in range(64):
        yield f"enter {port} {0x4D55_4C4B_0000_0001 + port:016x}"


def event(draw):
    """Something that happens to one port, and how it ends after some frames."""
    port = draw.randrange(64)
    kind = draw.randrange(8)
    if kind < 3:
        return [f"trip {port} {392 + draw.randrange(GUARD // 4 + 1)}"], []
    if kind == 3:
        return [f"power {port} lost"], [f"power {port} back"]
    if kind == 4:
        return [f"cut {port}"], [f"mend {port}"]
    if kind == 5:
        return [f"loss {port} {1 << draw.randrange(64):016x}"], [f"loss {port} {0:016x}"]
    if kind == 6:
        return [f"hold {port}"], [f"release {port}"]
    return [f"miss {draw.randrange(1, 54)} {draw.randrange(1, 20)}"], []


def main():
    frames = int(sys.argv[1])
    draw = random.Random(int(sys.argv[2]) if len(sys.argv) > 2 else 1)
    out = [*line(draw), f"run {CHUNK}"]
    done = CHUNK
    while done < frames:
        begins, ends = [], []
        for _ in range(draw.randrange(1, 5)):
            begin, end = event(draw)
            begins += begin
            ends += end
        bad = draw.randrange(1, CHUNK // 4)
        out += [*begins, f"run {bad} late {draw.randrange(4)}", *ends]
        out += [f"signal {port} back" for port in range(64)]
        rest = min(CHUNK, frames - done - bad)
        if rest > 0:
            out.append(f"run {rest} late {draw.randrange(4)}")
        done += bad + max(rest, 0)
    print("\n".join(out))


main()
