"""Sine and cosine of 4,096ths of a turn by an outside program: bc, of arbitrary precision, gives the sines of the first
quarter to 70 digits, and of each the nearest f32 is found by exact arithmetic; the other quarters as document 02 writes
them. Nothing of it is stored, and nothing of ours is in it. Numbers are the bit patterns of f32."""
import os
import re
import subprocess
from fractions import Fraction

QUARTER = 1024
TURN = 4 * QUARTER
DIGITS = 70
# bc's last digits may be wrong: nothing is decided by less than this
UNSURE = Fraction(1, 10 ** 60)
MINUS = 1 << 31


def by_bc():
    """The sine of k 4,096ths of a turn for k from 0 to 1,024."""
    program = f"""
scale = {DIGITS}
p = 8 * a(1)
for (k = 0; k <= {QUARTER}; k++) {{
    x = s(p * k / {TURN})
    print k, " ", x, "\\n"
}}
"""
    whole_lines = dict(os.environ, BC_LINE_LENGTH="0")
    done = subprocess.run(["bc", "-l"], input=program, capture_output=True, text=True, env=whole_lines)
    rows = [re.fullmatch(r"(\d+) (0|1?\.\d{%d})" % DIGITS, line) for line in done.stdout.splitlines()]
    if done.returncode or done.stderr or not all(rows) or [int(row[1]) for row in rows] != list(range(QUARTER + 1)):
        raise SystemExit(f"bc gives no table: {done.stderr[:200] or done.stdout[:200]}")
    return [Fraction(row[2] if row[2][0] != "." else "0" + row[2]) for row in rows]


def value(pattern):
    """The value of a normal f32 of sign plus, or of +0."""
    if pattern == 0:
        return Fraction(0)
    return Fraction((1 << 23) + pattern % (1 << 23)) * Fraction(2) ** ((pattern >> 23) - 150)


def nearest(x):
    """The pattern of the f32 nearest to x, and how far x is from the nearest middle of two f32, in units of their
    distance. x is 0, or a normal number of at most 1."""
    if x < UNSURE:
        return 0, Fraction(1, 2)
    exponent = 0
    while Fraction(2) ** exponent > x:
        exponent -= 1
    step = Fraction(2) ** (exponent - 23)
    below = int(x / step)
    off = x / step - below
    middle = abs(off - Fraction(1, 2))
    if middle * step <= UNSURE:
        raise SystemExit(f"bc cannot tell to which f32 {float(x)} is nearest")
    return ((exponent + 127) << 23) - (1 << 23) + below + (off > Fraction(1, 2)), middle


def quarter_wave():
    """The table's patterns, and the least distance from a middle."""
    found = [nearest(x) for x in by_bc()]
    return [pattern for pattern, _ in found], min(middle for _, middle in found)


def heading(table, number):
    """Sine and cosine of a turn number, by quarter; a zero is +0."""
    k, quarter = number % QUARTER, number // QUARTER
    t, mirror = table[k], table[QUARTER - k]
    minus_t, minus_mirror = (x | MINUS if x else 0 for x in (t, mirror))
    return [(t, mirror), (mirror, minus_t), (minus_t, minus_mirror), (minus_mirror, t)][quarter]
