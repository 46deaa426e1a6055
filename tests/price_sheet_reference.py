#!/usr/bin/env python3
"""An independent price sheet, written from docs/RULES.md and docs/FORMATS.md.

    price_sheet_reference.py CURVES_FILE < CLAIMS

It answers as the proved program does: the table on standard output and status 0, or one line on
standard error and status 1. tests/price_sheet.py compares the two.
"""
import struct
import sys

# The shadow prices in each clearing price, as the tariff prints them.
FORMULAE = {
    "West": ([1], [1, 2], [1, 2, 3]),
    "East": ([1, 4], [1, 2, 4, 5], [1, 2, 3, 4, 5, 6]),
    "Southeast": ([1, 4, 7], [1, 2, 4, 5, 7, 8], [1, 2, 3, 4, 5, 6, 7, 8, 9]),
    "New York City": (
        [1, 4, 7, 10],
        [1, 2, 4, 5, 7, 8, 10, 11],
        [1, 2, 3, 4, 5, 6, 7, 8, 9, 10, 11, 12],
    ),
    "Long Island": (
        [1, 4, 7, 13],
        [1, 2, 4, 5, 7, 8, 13, 14],
        [1, 2, 3, 4, 5, 6, 7, 8, 9, 13, 14, 15],
    ),
}


class Refused(Exception):
    pass


def refuse_curves(curve, step):
    raise Refused(f"refused by 51: step {step} of curve {curve} is not as a demand curve has it")


def first_wrong_step(steps):
    for i, (margin, price) in enumerate(steps):
        wrong = i >= 8 or margin > 1_000_000 or not 1 <= price <= 100_000
        if i > 0:
            wrong = wrong or margin >= steps[i - 1][0] or price >= steps[i - 1][1]
        if i == len(steps) - 1:
            wrong = wrong or margin > 0
        if wrong:
            return i
    return None


def read_curves(data):
    if len(data) < 2:
        refuse_curves(0, 0)
    (count,) = struct.unpack_from("<H", data)
    if not 1 <= count <= 32 or len(data) < 2 + 2 * count:
        refuse_curves(count, 0)
    counts = struct.unpack_from(f"<{count}H", data, 2)
    total = sum(counts)
    if len(data) != 2 + 2 * count + 8 * total:
        refuse_curves(count, 0)
    margins = struct.unpack_from(f"<{total}I", data, 2 + 2 * count)
    prices = struct.unpack_from(f"<{total}I", data, 2 + 2 * count + 4 * total)
    curves, at = [], 0
    for k, n in enumerate(counts):
        steps = list(zip(margins[at : at + n], prices[at : at + n]))
        wrong = first_wrong_step(steps)
        if wrong is not None:
            refuse_curves(k, wrong)
        curves.append(steps)
        at += n
    return curves


def value(steps, target, quantity):
    for margin, price in steps:
        if quantity + margin <= target:
            return price
    return 0


def number(word, limit):
    digits = word[1:] if word[:1] == "+" else word
    if not digits or any(c not in "0123456789" for c in digits) or int(digits) >= limit:
        raise ValueError(word)
    return int(digits)


def read_claims(text):
    claims = []
    lines = text.split("\n")
    if lines and lines[-1] == "":
        lines.pop()
    for at, line in enumerate(lines, 1):
        if not line.strip() or line.strip().startswith("#"):
            continue
        words = line.split()
        try:
            if len(words) != 3:
                raise ValueError(line)
            claim = number(words[0], 2**32), number(words[1], 2**32), number(words[2], 2**64)
        except ValueError:
            raise Refused(f"line {at}: expected three whole numbers: price, target, quantity")
        if len(claims) == 15:
            raise Refused(f"line {at}: there are only 15 requirements")
        claims.append((at, *claim))
    return claims


def sheet(curves, claims):
    if len(claims) != 15 or len(curves) != 15:
        raise Refused(
            "refused by 34: prices, targets and curves must each number 15, one for each requirement"
        )
    for k, (at, price, target, _) in enumerate(claims):
        if price > 100_000 or target > 1_000_000:
            raise Refused(
                f"line {at}: SP{k + 1} is refused by 35: its price is over 100000 or its target over 1000000"
            )
    for k, (at, price, target, quantity) in enumerate(claims):
        allowed = value(curves[k], target, quantity)
        if price > allowed:
            raise Refused(
                f"line {at}: SP{k + 1} is refused by 36: it claims {price} where its demand curve allows {allowed}"
            )
    out = "Clearing prices in cents per MW and hour\n"
    out += "location       thirty-minute    ten-minute      spinning\n"
    for name, formulae in FORMULAE.items():
        sums = [sum(claims[sp - 1][1] for sp in formula) for formula in formulae]
        out += f"{name:<14}{sums[0]:>14}{sums[1]:>14}{sums[2]:>14}\n"
    return out


def main():
    try:
        with open(sys.argv[1], "rb") as f:
            curves = read_curves(f.read())
        sys.stdout.write(sheet(curves, read_claims(sys.stdin.read())))
    except Refused as why:
        sys.stderr.write(f"price_sheet: {why}\n")
        return 1
    return 0


if __name__ == "__main__":
    sys.exit(main())
