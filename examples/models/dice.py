#!/usr/bin/env python3
"""What crates/farm_samples prints at its end of its first list of requests and sweeps: examples/models/dice.py

It makes the list once more, by the same generator, counts what is in it, and keeps which keys (Session-Id and
CC-Request-Number) were there before: those are the repeats.
"""
STEPS = 2_000


class Dice:
    def __init__(self, seed):
        self.state = seed

    def roll(self, sides):
        self.state = (self.state * 6_364_136_223_846_793_005 + 1_442_695_040_888_963_407) % 2**64
        return (self.state >> 33) % sides


def service(dice):
    """The rolls of one service: what is asked, and what was used."""
    if dice.roll(4) >= 2:
        for sides in (2_000, 20_000, 9):
            dice.roll(sides)
    for sides in (100, 3_000, 3):
        dice.roll(sides)


def request(dice):
    """Key and kind of a request."""
    key = dice.roll(30), dice.roll(60)
    kind = ["INITIAL"] * 3 + ["UPDATE"] * 3 + ["TERMINATION"] + ["EVENT"] * 3
    kind = kind[dice.roll(10)]
    if kind == "EVENT":
        dice.roll(5)
    dice.roll(6)
    for _ in range([0, 1, 1, 1, 1, 1, 2, 2][dice.roll(8)]):
        service(dice)
    return key, kind


def main():
    dice, seen = Dice(1), set()
    counts = dict.fromkeys(["INITIAL", "UPDATE", "TERMINATION", "EVENT", "repeats", "sweeps"], 0)
    for _ in range(STEPS):
        dice.roll(6_000)
        if dice.roll(12) == 0:
            counts["sweeps"] += 1
            continue
        key, kind = request(dice)
        counts[kind] += 1
        counts["repeats"] += key in seen
        seen.add(key)
    words = [f"{word} {count}" for word, count in counts.items()]
    for first in (0, 2, 4):
        print(" ".join(words[first:first + 2]))
    print("0 differences\nfull books: 0 differences")


if __name__ == "__main__":
    main()
