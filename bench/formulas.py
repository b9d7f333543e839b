#!/usr/bin/env python3
"""Pipes formulas through the built program and prints what a token of them takes, when it is written, which reads the
text's tokens, and when its value is read, which makes the formula's tree: in short formulas, in formulas that are as
long as one may be, in brackets that are as deep, and in signs, with the ratios to short ones. All are in one column and
have as many tokens together.

    ./sheets run < examples/first.http    # builds the program
    python3 bench/formulas.py
"""

from client import batch, get, put, seconds

TOKENS = 300_000
DEEPEST = 32
WRITES = 3
READS = 10
ROWS_MORE = batch({"appendDimension": {"sheetId": 0, "dimension": "ROWS", "length": 20_000}})


def sums(tokens):
    """A sum of ones of so many tokens, an odd number."""
    return "=" + "+".join(["1"] * ((tokens + 1) // 2))


def brackets(tokens):
    """Ones in brackets as deep as they may be, added up: 2 * DEEPEST + 1 tokens each, and a sign between two."""
    one = "(" * DEEPEST + "1" + ")" * DEEPEST
    return "=" + "+".join([one] * ((tokens + 1) // (2 * DEEPEST + 2)))


def signs(tokens):
    """A one behind signs, of so many tokens."""
    return "=" + "-" * (tokens - 1) + "1"


def time_of(shape, tokens):
    """How many nanoseconds a token takes when it is written, and when its formula's value is read."""
    formulas = TOKENS // tokens
    area = f"A1:A{formulas}"
    written = put(area, [[shape(tokens)]] * formulas, option="USER_ENTERED")
    write = seconds(ROWS_MORE, written, WRITES) / (WRITES * formulas * tokens)
    read = seconds(ROWS_MORE + written, get(area), READS) / (READS * formulas * tokens)
    return write * 1e9, read * 1e9


def main():
    first = None
    for name, shape, tokens in (
        ("sums", sums, 15),
        ("sums", sums, 127),
        ("sums", sums, 511),
        ("brackets", brackets, 65),
        ("brackets", brackets, 461),
        ("signs", signs, 511),
    ):
        figures = time_of(shape, tokens)
        first = first or figures
        print(
            f"{name} of {tokens} tokens: {figures[0]:.0f} nanoseconds a token written, ratio {figures[0] / first[0]:.2f};"
            f" {figures[1]:.0f} a token read, ratio {figures[1] / first[1]:.2f}"
        )


if __name__ == "__main__":
    main()
