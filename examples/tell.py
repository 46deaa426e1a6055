#!/usr/bin/env python3
"""Tells a statement in plain words: its first and last closing, the sums, and every refusal.

usage: tell.py FEED STATEMENT
"""
import os
import re
import sys

GRAINS_PER_CENT = 36_000
KINDS = {1: "an enrolment of a supplier", 2: "an enrolment of a customer", 3: "an opening", 4: "a clearing",
         5: "an interval", 6: "a closing", 7: "a voiding"}
REFUSALS = os.path.join(os.path.dirname(os.path.abspath(__file__)), "..", "docs", "REFUSALS.md")


def causes():
    """Each cause's number and when it is met, from the table of the causes."""
    with open(REFUSALS, encoding="utf-8") as file:
        rows = re.findall(r"^\| (\d+) \| \w+ \| (.*?) \|", file.read(), re.MULTILINE)
    return {int(number): when for number, when in rows}


def closings(lines):
    """The lines of each closing: accounts, then the carry."""
    closing = []
    for line in lines:
        if line[0] in "PCK":
            closing.append(line)
        if line[0] == "K":
            yield closing
            closing = []


def dollars(cents):
    sign = "minus " if cents < 0 else ""
    return f"{sign}{abs(cents) // 100:,} dollars and {abs(cents) % 100} cents"


def cents_of(letter, lines):
    return sum(int(line.split()[3]) for line in lines if line[0] == letter)


def tell_sums(lines, hours):
    paid, charged = cents_of("P", lines), cents_of("C", lines)
    carry = int(hours[-1][-1].split()[2])
    held = GRAINS_PER_CENT * (charged - paid) + carry
    print(f"{len(hours)} hours were closed.")
    print(f"    paid to suppliers       {dollars(paid)}")
    print(f"    charged to customers    {dollars(charged)}")
    print(f"    carried on              {carry:,} grains that customers still owe ({GRAINS_PER_CENT:,} are a cent)")
    print(f"    held                    {held:,} grains that suppliers have earned beyond whole cents")


def tell_refusals(lines, feed):
    refusals = [tuple(map(int, line.split()[1:])) for line in lines if line[0] == "R"]
    print(f"Refused, {len(refusals)} in all:" if refusals else "Nothing was refused.")
    when = causes()
    for number, offset in refusals:
        kind = KINDS.get(feed[offset], "a record") if number != 51 and offset < len(feed) else "the curve book"
        print(f"    at byte {offset:,}, {kind}, by {number}: {when[number]}")


def main():
    feed_path, statement_path = sys.argv[1:]
    with open(feed_path, "rb") as file:
        feed = file.read()
    with open(statement_path, encoding="ascii") as file:
        lines = file.read().splitlines()
    hours = list(closings(lines))
    if hours:
        for closing, name in ((hours[0], "first"), (hours[-1], "last")):
            print(f"The {name} closing (P hour supplier cents, C hour customer cents, K hour carry):")
            print("".join(f"    {line}\n" for line in closing), end="")
    print(f"The whole statement, {len(lines)} lines, is in {statement_path}.")
    if hours:
        tell_sums(lines, hours)
    tell_refusals(lines, feed)


main()
