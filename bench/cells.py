#!/usr/bin/env python3
"""Pipes reads and writes of one cell through the built program, in a sheet that holds few cells and in one
that is full, and reads of few and of all cells, and prints the time of each with their ratios.

    ./sheets run < examples/first.http    # builds the program
    python3 bench/cells.py
"""

from client import COLUMNS, filled, get, put, seconds

FEW = ("A1:J1", 1, 10)
FULL = ("A1:Z1000", 1_000, COLUMNS)


def one_cell(name, request, count):
    """Prints what a request of one cell takes in a sheet of few cells and in a full one."""
    few = seconds(filled(*FEW), request, count) / count
    full = seconds(filled(*FULL), request, count) / count
    print(
        f"{name} of one cell: {few * 1e6:.1f} microseconds where 10 cells are stored, {full * 1e6:.1f} where"
        f" 26000 are: ratio {full / few:.2f}"
    )


def areas(count):
    """Prints what a cell takes in a read of 260 cells and of all 26,000."""
    small = seconds(filled(*FULL), get("A1:Z10"), count * 100) / (count * 100 * 10 * COLUMNS)
    large = seconds(filled(*FULL), get("A1:Z1000"), count) / (count * 1_000 * COLUMNS)
    print(
        f"a cell of a read: {small * 1e9:.0f} nanoseconds of 260 cells, {large * 1e9:.0f} of 26000: ratio"
        f" {large / small:.2f}"
    )


def main():
    one_cell("a read", get("C1"), 20_000)
    one_cell("a write", put("C1", [[7]]), 1_000)
    areas(20)


if __name__ == "__main__":
    main()
