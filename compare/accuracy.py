#!/usr/bin/env python3
"""How near the replaced functions are to the true ones.

    ./run --samples | python3 accuracy.py

Reads lines `NAME INPUT ANSWER` (f64 bit patterns) and prints, for each function, its worst error
in units in the last place (ulp) of the answer's format, which is f32 for ln_1p and f64 for the
others, and the input where it occurs. Needs mpmath.
"""

import struct
import sys

import mpmath

# Enough that the true value's own error, near a zero of a logarithm too, is far below what is
# measured.
mpmath.mp.prec = 160

# Name: the true function, digits of the format, exponent of its smallest number.
FUNCTIONS = {
    "exp": (mpmath.exp, 53, -1074),
    "ten_to": (lambda y: mpmath.power(10, y), 53, -1074),
    "ln": (mpmath.log, 53, -1074),
    "log10": (mpmath.log10, 53, -1074),
    "ln_1p": (mpmath.log1p, 24, -149),
}


def number(bits):
    return struct.unpack(">d", bytes.fromhex(bits))[0]


def error(name, given, answer):
    """The distance between the answer and the true value, in ulp of the true value."""
    function, digits, least = FUNCTIONS[name]
    true = function(mpmath.mpf(given))
    if true == 0:
        return 0.0 if answer == 0 else float("inf")
    _, exponent = mpmath.frexp(true)
    unit = max(exponent - digits, least)
    return float(mpmath.ldexp(abs(answer - true), -unit))


def main():
    worst = {}
    counts = {}
    for line in sys.stdin:
        name, given, answer = line.split()
        found = error(name, number(given), number(answer))
        counts[name] = counts.get(name, 0) + 1
        if name not in worst or found > worst[name][0]:
            worst[name] = (found, given)
    print("| function | inputs | worst error, ulp | at | bits |")
    print("|---|---|---|---|---|")
    for name, (found, given) in worst.items():
        print(f"| {name} | {counts[name]} | {found:.3f} | {number(given)!r} | {given} |")
    if set(worst) != set(FUNCTIONS):
        sys.exit("accuracy: samples of some function are missing")


if __name__ == "__main__":
    main()
