#!/usr/bin/env python3
"""The support card by a second model, from document 02 and not from the code: every one of the 65,536 words is looked at, on every chip, as a
master and as a slave. Held to it are what the program support_card prints (crates/support_card/stdout, which the gate compares with the
program) and the table of docs/SUPPORT-CARD.md; then the formula, for orders of flags that are no chip's. A wrong number has to be found."""
import random
import re
import sys
from pathlib import Path

ROOT = Path(__file__).resolve().parent.parent
CHIPS = ["neither", "i2c_v3", "ch32v4", "both"]
CLASSES = ["Arbitration", "Bus", "Timeout", "Crc", "Overrun", "Nack", "none"]
WORDS = 65536


def order(chip, side):
    """Document 02's order on a chip: bit numbers with the errors that they are."""
    flags = [(9, "Arbitration")]
    if chip & 2:
        flags.append((8, "Bus"))
    if chip & 1:
        flags.append((14, "Timeout"))
    flags += [(12, "Crc"), (11, "Overrun")]
    if side == "master":
        flags.append((10, "Nack"))
    return flags


def counted(flags):
    """How many words lead to each class: the first flag that is set decides."""
    counts = {}
    for word in range(WORDS):
        name = next((name for bit, name in flags if word >> bit & 1), "none")
        counts[name] = counts.get(name, 0) + 1
    return counts


def model():
    """(chip, side, class) -> words."""
    card = {}
    for chip in range(4):
        for side in ("master", "slave"):
            counts = counted(order(chip, side))
            card.update({(chip, side, name): counts.get(name, 0) for name in CLASSES})
    return card


def printed(text):
    """The card that the program prints, line by line."""
    card = {}
    for line in text.splitlines()[1:]:
        number, name, side, error, words = line.split()
        assert CHIPS[int(number)] == name and (int(number), side, error) not in card, line
        card[int(number), side, error] = int(words)
    return card


def documented(text):
    """The table of docs/SUPPORT-CARD.md."""
    rows = re.findall(r"^\| ([0-3]), .*? \| (master|slave) \| ([0-9,| ]+) \|$", text, re.M)
    card = {}
    for chip, side, numbers in rows:
        columns = [int(number.replace(",", "")) for number in numbers.split(" | ")]
        card.update({(int(chip), side, name): words for name, words in zip(CLASSES, columns, strict=True)})
    return card


def holds(bits):
    """The formula: 2^(15 - k) words for the k-th flag, 2^(16 - n) for none of n."""
    counts = counted([(bit, place) for place, bit in enumerate(bits)])
    wanted = {place: 2 ** (15 - place) for place in range(len(bits))}
    wanted["none"] = 2 ** (16 - len(bits))
    return counts == wanted


def changed(text):
    """The text with one number of the card made wrong, for each. No right one ends in 7."""
    lines = text.splitlines()
    for at, line in enumerate(lines):
        if re.match(r"[0-3] |\| [0-3], ", line):
            for digit in re.finditer(r"[0-9](?= \||$)", line):
                yield "\n".join(lines[:at] + [line[: digit.start()] + "7" + line[digit.end() :]] + lines[at + 1 :])


def main():
    card = model()
    output = (ROOT / "crates" / "support_card" / "stdout").read_text()
    page = (ROOT / "docs" / "SUPPORT-CARD.md").read_text()
    wrong = [name for name, got in (("the program", printed(output)), ("the page", documented(page))) if got != card]
    seen = sum(printed(text) != card for text in changed(output)) + sum(documented(text) != card for text in changed(page))
    source = random.Random(1)
    orders = [[], [15], [0], list(range(16)), list(range(15, -1, -1)), [3, 0, 15]]
    orders += [source.sample(range(16), source.randrange(1, 17)) for _ in range(20)]
    wrong += [f"the formula for {bits}" for bits in orders if not holds(bits)]
    if holds([3, 0, 3]):
        wrong.append("an order with a flag twice")
    if seen != 2 * len(card):
        wrong.append(f"of {2 * len(card)} changed numbers {2 * len(card) - seen}")
    if wrong:
        sys.exit(f"card: {', '.join(wrong)}: not as counted")
    print(f"the support card: {len(card)} numbers and {len(orders)} orders of flags as counted word by word")


main()
