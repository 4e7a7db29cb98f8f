#!/usr/bin/env python3
"""make.py: writes clean.bin, first.bin, first.session, second.bin and third.bin beside this file, and the stdin and
stdout of crates/send, crates/to_session and crates/from_session.

Every run writes the same bytes. The sets are synthetic: nobody spoke, and no speech was measured for them. They
follow the sounds of "sixteen" at 22.5 ms a frame. crates/send/out/send packs them, and crates/to_session/out/to_session makes the
session file; `rt run` in the folder of each builds it.
"""
import os
import subprocess

HERE = os.path.dirname(os.path.abspath(__file__))
ROOT = os.path.dirname(os.path.dirname(HERE))
BITS = 54
BYTES = 7
SET = 11

# Each sound: frames, voiced, then from and to for the pitch index, L1, L2, L3, L4, G2, B and F.
SOUNDS = (
    (3, 0, (0, 0), (18, 20), (30, 31), (12, 12), (40, 41), (20, 20), (0, 0), (0, 0)),  # before the word
    (6, 0, (0, 0), (88, 93), (17, 20), (33, 35), (9, 10), (22, 24), (0, 0), (0, 0)),  # s
    (4, 1, (52, 49), (41, 44), (25, 27), (50, 52), (21, 22), (26, 28), (15, 15), (96, 104)),  # i
    (10, 0, (0, 0), (84, 92), (14, 19), (31, 36), (6, 10), (21, 24), (0, 0), (0, 0)),  # x, t
    (6, 1, (50, 45), (60, 66), (38, 42), (44, 47), (28, 31), (27, 28), (15, 15), (112, 124)),  # ee
    (4, 1, (44, 41), (70, 72), (47, 48), (22, 24), (35, 36), (26, 23), (12, 8), (70, 66)),  # n
    (7, 0, (0, 0), (22, 19), (32, 30), (13, 12), (41, 40), (21, 20), (0, 0), (0, 0)),  # after it
)

# The logical bits that a fade flips, by frame; it falls on "x, t". Word A is 0 to 7, B 8 to 13, C 14 to 20, D 21 to 27,
# the pitch code 28 to 34. First at most one in each of them, then two in word A of every frame, then a data bit and a
# parity bit of word B in two frames, which together leave the syndrome of its spare.
FIRST_FADE = {
    13: (30,), 14: (2,), 15: (16,), 16: (5, 24), 17: (9,), 18: (12, 20, 33), 19: (27,), 20: (14,), 21: (7, 31),
}
SECOND_FADE = {frame: (frame % 4, 4 + frame % 3) for frame in range(13, 23)}
THIRD_FADE = {16: (8, 13), 19: (9, 12)}


def between(ends, at, frames):
    """The value of frame `at` on the way from one end to the other."""
    return ends[0] + (ends[1] - ends[0]) * at // (frames - 1)


def sets():
    """The eleven bytes of each set: 1 if voiced, pitch, L1 to L4, G2, G1, B, F, flag."""
    before = 0
    for frames, voiced, *tracks in SOUNDS:
        for at in range(frames):
            pitch, l1, l2, l3, l4, g2, bandpass, fourier = (between(ends, at, frames) for ends in tracks)
            g1 = 0 if abs(g2 - before) <= 2 else 4
            flag = 1 if voiced and at == 0 else 0
            before = g2
            yield bytes((voiced, pitch, l1, l2, l3, l4, g2, g1, bandpass, fourier, flag))


def faded(call, fade):
    """The call with logical bits flipped: bit j is at place 7 j modulo 54, place t in byte t / 8, top bit first."""
    frames = bytearray(call)
    for frame, flips in fade.items():
        for j in flips:
            place = 7 * j % BITS
            frames[BYTES * frame + place // 8] ^= 0x80 >> place % 8
    return bytes(frames)


def made(program, data):
    """What a proved program writes for these bytes."""
    path = os.path.join(ROOT, "crates", program, "out", program)
    return subprocess.run([path], input=data, stdout=subprocess.PIPE, check=True).stdout


def write(folder, name, data):
    with open(os.path.join(folder, name), "wb") as out:
        out.write(data)


def store(crate, stdin, stdout):
    """What the gate runs a program on, and what it must write."""
    folder = os.path.join(ROOT, "crates", crate)
    write(folder, "stdin", stdin)
    write(folder, "stdout", stdout)


def main():
    whole = b"".join(sets())
    clean = made("send", whole)
    if len(clean) * SET != len(whole) * BYTES:
        raise SystemExit("a set was refused")
    first = faded(clean, FIRST_FADE)
    file = made("to_session", first)
    write(HERE, "clean.bin", clean)
    write(HERE, "first.bin", first)
    write(HERE, "first.session", file)
    write(HERE, "second.bin", faded(clean, SECOND_FADE))
    write(HERE, "third.bin", faded(clean, THIRD_FADE))
    store("send", whole, clean)
    store("to_session", first, file)
    store("from_session", file, first)


if __name__ == "__main__":
    main()
