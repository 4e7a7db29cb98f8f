#!/usr/bin/env python3
"""make.py: writes lsf.txt and mag.txt beside this file; every run writes the same bytes.

The numbers are synthetic. They are not those of Tables IV to VIII of MIL-STD-3005, of which our copy is damaged.
"""
import os

HERTZ = 1_000_000  # an LSF entry is in millionths of a hertz
MOST = 4_000 * HERTZ  # an LSF entry is at most this
COMPONENTS = 10
FIRST_STAGE_ROWS = 128
STEEP_ROWS = 16  # the last rows of stage 1
LATER_STAGE_ROWS = 64
LATER_STAGE_SPREADS = (40, 20, 10)  # hertz, stages 2 to 4
MAGNITUDE_ROWS = 256


class Numbers:
    """A linear congruential generator with a fixed start."""

    def __init__(self, start):
        self.state = start

    def within(self, spread):
        """A number from -spread to spread."""
        self.state = (1103515245 * self.state + 12345) % 2**31
        return self.state * (2 * spread + 1) // 2**31 - spread


def lsf_entries(numbers):
    """Stage 1 rises by 350 Hz from about 330 Hz; the other stages are corrections that keep every sum rising. The last rows of
    stage 1 rise by 450 Hz, so that they run off the top: entries may reach 4,000 Hz, and a last value 3,950 Hz."""
    for row in range(FIRST_STAGE_ROWS):
        step = 350 if row < FIRST_STAGE_ROWS - STEEP_ROWS else 450
        for component in range(COMPONENTS):
            entry = (330 + step * component) * HERTZ + numbers.within(60 * HERTZ)
            yield min(entry, MOST)
    for spread in LATER_STAGE_SPREADS:
        for _ in range(LATER_STAGE_ROWS * COMPONENTS):
            yield numbers.within(spread * HERTZ)


def magnitude_entries(numbers):
    """Magnitudes around 1,000,000."""
    for _ in range(MAGNITUDE_ROWS * COMPONENTS):
        yield 1_000_000 + numbers.within(400_000)


def write(name, entries):
    """One number a line."""
    path = os.path.join(os.path.dirname(os.path.abspath(__file__)), name)
    with open(path, "w", encoding="ascii", newline="\n") as out:
        out.writelines(f"{entry}\n" for entry in entries)


if __name__ == "__main__":
    write("lsf.txt", lsf_entries(Numbers(1)))
    write("mag.txt", magnitude_entries(Numbers(2)))
