#!/usr/bin/env python3
"""Writes the example day, feed.bin and curves.bin, from tables.py (bytes as in docs/FORMATS.md).

usage: make_day.py [FOLDER]     FOLDER: where the two files go (default: beside this script)
"""
import os
import struct
import sys

sys.dont_write_bytecode = True  # nothing but the two files is left behind
from tables import (ALDER_CREEK, BEYOND_CAPABILITY, CLOSED_EARLY, COLD_SPRING, CURVES, CUSTOMERS, DOVER, HOURS,
                    INTERVALS, INTERVAL_SECONDS, OPENED_AGAIN, PRICED, PRICED_TOO_HIGH, SCHEDULES, SUPPLIERS,
                    TARGETS, VOIDED)


def record(kind, n, m, *lists):
    return struct.pack("<BHH", kind, n, m) + b"".join(struct.pack(f"<{len(numbers)}I", *numbers) for numbers in lists)


def enrolments():
    for number, location, kind, upper, rate in SUPPLIERS:
        yield record(1, 0, 0) + struct.pack("<IHHII", number, location, kind, upper, rate)
    for number, *_ in CUSTOMERS:
        yield record(2, 0, 0, [number])


def market(kind, front, prices, targets, schedules):
    """A clearing (kind 4) or an interval (kind 5, whose seconds are the front)."""
    numbers = [supplier[0] for supplier in SUPPLIERS]
    rows = b"".join(struct.pack("<iIIII", *row) for row in schedules)
    return record(kind, len(prices), len(numbers), front, prices, targets, numbers) + rows


def shadow_prices(columns, percent=100):
    prices = [0] * len(CURVES)
    for requirement, price in zip(PRICED, columns):
        prices[requirement] = price * percent // 100
    return prices


def clearing(hour, extra=0):
    shape, _, columns = HOURS[hour]
    prices = shadow_prices(columns)
    prices[0] += extra
    return market(4, [], prices, TARGETS[shape], SCHEDULES[shape])


def interval(hour, i, dover_ten=None):
    shape, _, columns = HOURS[hour]
    percent, moved = INTERVALS[i]
    rows = [list(row) for row in SCHEDULES[shape]]
    rows[COLD_SPRING][2] -= moved
    rows[ALDER_CREEK][2] += moved
    rows[ALDER_CREEK][0] -= moved
    if dover_ten is not None:
        rows[DOVER][3] = dover_ten
    return market(5, [INTERVAL_SECONDS], shadow_prices(columns, percent), TARGETS[shape], rows)


def closing(hour):
    load = HOURS[hour][1]
    numbers = [customer[0] for customer in CUSTOMERS]
    rows = [(gross * load // 100, station, exports) for _, gross, station, exports in CUSTOMERS]
    return record(6, 0, len(numbers), numbers, *rows)


def opening(hour):
    return record(3, 0, 0, [hour])


def hour_records(hour):
    if hour == VOIDED:
        yield from [opening(hour), clearing(hour)] + [interval(hour, i) for i in range(5)] + [record(7, 0, 0)]
    yield opening(hour)
    if hour == PRICED_TOO_HIGH:
        yield clearing(hour, extra=2_500)
    yield clearing(hour)
    for i in range(len(INTERVALS)):
        if hour == BEYOND_CAPABILITY and i == 8:
            yield interval(hour, i, dover_ten=900)
        if hour == CLOSED_EARLY and i == 11:
            yield closing(hour)
        yield interval(hour, i)
    yield closing(hour)
    if hour == OPENED_AGAIN:
        yield opening(hour)


def curve_book():
    counts = struct.pack(f"<{len(CURVES) + 1}H", len(CURVES), *map(len, CURVES))
    steps = [step for curve in CURVES for step in curve]
    return counts + b"".join(struct.pack(f"<{len(steps)}I", *part) for part in zip(*steps))


def main():
    folder = sys.argv[1] if len(sys.argv) > 1 else os.path.dirname(os.path.abspath(__file__))
    feed = b"".join(enrolments()) + b"".join(part for hour in range(len(HOURS)) for part in hour_records(hour))
    for name, data in [("feed.bin", feed), ("curves.bin", curve_book())]:
        with open(os.path.join(folder, name), "wb") as file:
            file.write(data)


if __name__ == "__main__":
    main()
