#!/usr/bin/env python3
"""Compares stored pictures of runs with the model of the farm, and looks whether their words stand apart.

    pictures.py FOLDER       plays each .schedule of the folder, and of those below its sites/, that has a .svg, and
                             reads that picture: which steps, nodes, messages, marks, connections and accounts it shows

What a picture has to show is worked out here from the model's runs; the picture is read as a person reads it, by where
lines begin and end. Its relays choose identifiers as the program is documented to (nodes.py).
"""
import re
import sys
import xml.etree.ElementTree as Xml
from pathlib import Path

from credit_control import CC_REQUEST_TYPE
from diameter import ERROR, RESULT_CODE, RETRANSMITTED, NoList, first, split
from row_site import CLIENT, FRONT, RELAY, ROW_SITE
from site_stories import site_named
from world import World, steps_of

TOLD, AIR = 64, 8
CHARACTER, ABOVE, BELOW = 6.63, 8.4, 2.6
# RFC 6733, section 7.1, and RFC 8506, section 9, without the word that they all begin with.
RESULTS = {2001: "SUCCESS", 3001: "COMMAND_UNSUPPORTED", 3002: "UNABLE_TO_DELIVER", 3003: "REALM_NOT_SERVED",
           3004: "TOO_BUSY", 3005: "LOOP_DETECTED", 3007: "APPLICATION_UNSUPPORTED", 4012: "CREDIT_LIMIT_REACHED",
           5001: "AVP_UNSUPPORTED", 5002: "UNKNOWN_SESSION_ID", 5004: "INVALID_AVP_VALUE", 5005: "MISSING_AVP",
           5009: "AVP_OCCURS_TOO_MANY_TIMES", 5010: "NO_COMMON_APPLICATION", 5012: "UNABLE_TO_COMPLY",
           5014: "INVALID_AVP_LENGTH", 5030: "USER_UNKNOWN", 5031: "RATING_FAILED"}
# RFC 8506, section 8.3: any other value has no word.
REQUEST_TYPES = {1: " INITIAL", 2: " UPDATE", 3: " TERMINATION", 4: " EVENT"}


def ends_of(world):
    """The ends of connections that stand: number, node and the other node, and whether the node has learned of it."""
    return {(it.number, node, it.other(node)): known
            for it in world.connections.values() for node, known in it.knows.items()}


def at_once_and_apart(row, ends):
    """Of ends that began or are gone in a row, those of which both nodes have learned, and those of one node alone."""
    both = {(row, frozenset((node, peer))) for number, node, peer in ends if (number, peer, node) in ends}
    return both, {(row, node, peer) for number, node, peer in ends if (number, peer, node) not in ends}


def label(message):
    """A message in words."""
    try:
        avps = split(message.body)
    except NoList:
        avps = []
    name = {True: "CCR", False: "CCA"}[message.is_request] + request_type(avps) if message.command == 272 else \
        f"{message.command} {'request' if message.is_request else 'answer'}"
    again = " T" if message.flags & RETRANSMITTED else ""
    return f"{name} 0x{message.hop:x}{again}{'' if message.is_request else result(avps)}"


def request_type(avps):
    found = first(avps, CC_REQUEST_TYPE)
    return REQUEST_TYPES.get(int.from_bytes(found.value), "") if found and len(found.value) == 4 else ""


def result(avps):
    found = first(avps, RESULT_CODE)
    return " " + RESULTS[int.from_bytes(found.value)] if found else ""


class Run:
    """What a picture has to show of a schedule."""

    def __init__(self, octets, site, first=1, last=None):
        self.world, self.site = World(site, None), site
        self.steps, self.flights, self.notes, self.charges = [], {}, [], {}
        self.made, self.learned, self.ended, self.dropped = set(), set(), set(), set()
        steps = steps_of(octets, site)
        for step in steps[:first - 1]:
            self.world.play(*step)
        self.before = len(steps[:first - 1])
        if self.before:
            self.steps.append(("..", "before"))
            self.follow(0, "before")
        end = min(last or len(steps), self.before + TOLD)
        for number, step in enumerate(steps[self.before:end], self.before + 1):
            self.tell(len(self.steps), number, step)
        for step in steps[end:]:
            self.world.play(*step)
        self.left_out, self.next = len(steps[end:]), end + 1

    def on_the_way(self):
        """What is in flight, by the message itself."""
        return {id(message): (message, sender, connection.other(sender))
                for connection in self.world.connections.values()
                for sender, messages in connection.flights.items() for message in messages}

    def purses(self):
        book = self.world.book
        return {account: (balance, book.reserved(account)) for account, balance in book.balances.items()}

    def tell(self, row, number, step):
        word, *arguments = step
        old, purses, entries = ends_of(self.world), self.purses(), self.world.book.entries
        job = self.job(word, arguments)
        applies = self.world.play(*step)
        self.steps.append((str(number), word if applies else f"{word} (skipped)"))
        self.compare(row, old, ends_of(self.world))
        sent = self.follow(row, word)
        if applies:
            self.note(row, word, arguments[0], job, sent, purses, entries)

    def compare(self, row, old, new):
        """What became of connections."""
        learned = {end for end, known in new.items() if known and not old.get(end)}
        for both, alone, ends in ((self.made, self.learned, learned), (self.ended, self.dropped, old.keys() - new)):
            at_once, apart = at_once_and_apart(row, ends)
            both |= at_once
            alone |= apart

    def job(self, word, arguments):
        front = self.world.front(arguments[0]) if word in ("charge", "emit") else None
        return front and front.job(arguments[1])

    def follow(self, row, word):
        """Messages that are new, and those that are gone."""
        now = self.on_the_way()
        new = [key for key in now if key not in self.flights]
        for key in new:
            message, sender, receiver = now[key]
            self.flights[key] = [message, sender, receiver, row, "air", None]
        for key, flight in self.flights.items():
            if flight[4] == "air" and key not in now:
                flight[4:] = ["arrow" if word == "deliver" else "cross", row]
        return new

    def note(self, row, word, node, job, sent, purses, entries):
        words = {"pick": "takes a request", "refuse": "refuses it, by order", "restart": "restarts", "crash": "crashes"}
        if word in words:
            self.notes.append([row, node, words[word]])
        if word in ("send", "emit") and not sent:
            self.notes.append([row, node, f"{'answer' if word == 'emit' else 'message'} lost: connection gone"])
        if word == "charge":
            self.notes.append([row, node, self.charged(purses, entries)])
            self.charges[id(job)] = self.notes[-1], job
        if word == "emit" and sent and id(job) in self.charges:
            note = self.charges[id(job)][0]
            if note[2] == "nothing charged":
                note[2] = f"{'refused' if job.answer.flags & ERROR else 'a repeat'}: nothing charged"

    def charged(self, purses, entries):
        for account, (balance, held) in self.purses().items():
            old_balance, old_held = purses[account]
            changes = [f" {old_balance} -> {balance}"] if balance != old_balance else []
            changes += [f" held {old_held} -> {held}"] if held != old_held else []
            if changes:
                return f"{account[1]}:{','.join(changes)}"
        return "nothing charged" if entries == self.world.book.entries else "no account changes"

    def shown(self):
        drawn = [flight for flight in self.flights.values() if flight[4] != "air"]
        air = [flight for flight in self.flights.values() if flight[4] == "air"]
        ways = [(label(message), sender, receiver if end == "arrow" else None, row, end, last)
                for message, sender, receiver, row, end, last in drawn + air[:AIR]]
        part = {node for flight in self.flights.values() for node in flight[1:3]}
        part |= {node for _, pair in self.made for node in pair} | {note[1] for note in self.notes}
        part |= {node for _, *pair in self.learned | self.dropped for node in pair} | {node for _, pair in self.ended for node in pair}
        return {"nodes": [node for kind in (CLIENT, RELAY, FRONT) for node in self.site.nodes
                          if self.site.nodes[node] == kind and node in part],
                "steps": self.steps, "ways": sorted(ways, key=str), "notes": sorted(map(tuple, self.notes)),
                "made": self.made, "learned": self.learned, "ended": self.ended, "dropped": self.dropped,
                "ending": self.ending(len(air))}

    def ending(self, air):
        lines = [f"Not drawn: messages still on their way: {air - AIR}"] if air > AIR else []
        if self.before:
            lines.append(f"Left out: {self.before} steps before these")
        if self.left_out:
            lines.append(f"Left out: {self.left_out} further steps (--from {self.next}); the book is that after all of them")
        book = self.world.book
        lines.append(f"Book at the end: entries {book.entries}, open sessions {len(book.sessions)}")
        others = 0
        for account, (balance, held) in self.purses().items():
            opening = book.openings[account]
            moved = f" -> {balance}" if balance != opening else ""
            kept = f", held {held}" if held else ""
            others += not (moved or kept)
            lines += [f"{account[1]}: {opening}{moved}{kept}"] if moved or kept else []
        return lines + [f"unchanged accounts: {others}"]


class Picture:
    """What a picture shows."""

    def __init__(self, text, site):
        self.site = site
        root = Xml.fromstring(text)
        self.width, self.height = map(int, root.get("viewBox").split()[2:])
        tag = lambda name: root.iter("{http://www.w3.org/2000/svg}" + name)
        self.texts = [(it.get("class"), it.get("text-anchor", "start"), int(it.get("x")), int(it.get("y")),
                       it.text or "") for it in tag("text")]
        self.paths = [(it.get("class").split(), it.get("d")) for it in tag("path")]
        self.circles = [(it.get("class"), int(it.get("cx")), int(it.get("cy"))) for it in tag("circle")]
        self.columns = {x: self.whole(words) for kind, anchor, x, _, words in self.texts
                        if (kind, anchor) == ("name", "middle")}
        numbers = [(y - 3, words) for _, anchor, _, y, words in self.texts if anchor == "end"]
        self.rows = {y: at for at, (y, _) in enumerate(numbers)}
        self.numbers = [words for _, words in numbers]

    def whole(self, shown):
        """The name of a node; of a long one the beginning is shown."""
        named = [name for name in self.site.nodes if name.startswith(shown.removesuffix(".."))]
        return named[0] if shown.endswith("..") and len(named) == 1 else shown

    def row(self, y):
        """The last row above this height, or at it."""
        return max((at for top, at in self.rows.items() if top <= y), default=None)

    def points(self, path):
        return [tuple(map(int, point.split())) for point in path.removeprefix("M").split("L")]

    def pairs(self, *kinds):
        """The connections in bars or lines of these classes: row, and the nodes at the two ends."""
        ends = [self.points(path) for classes, path in self.paths if classes == list(kinds)]
        return [(self.rows[a[1]], self.columns[a[0]], self.columns[b[0]]) for a, b in ends]

    def at_once(self, kind):
        return {(row, frozenset(nodes)) for row, *nodes in self.pairs(kind)}

    def apart(self, kind):
        """The same where one node alone has learned it: the line has dashes, and a circle at that node."""
        lines = self.pairs(kind, "air")
        circles = {(self.rows[y], self.columns[x]) for name, x, y in self.circles if name == kind}
        assert all((row, node) in circles for row, node, _ in lines)
        return set(lines)

    def ways(self):
        """The ways of messages: each path is followed by its tip, and labels come in the order of the ways."""
        kinds = ("request", "answer", "refusal")
        labels = [text for text in self.texts if text[0] in kinds and text[1] == "middle"]
        paths = [(classes, path) for classes, path in self.paths if classes[0] in (*kinds, "lost")]
        at = 0
        for kind, _, _, _, words in labels:
            (classes, path), tip = paths[at], paths[at + 1] if at + 1 < len(paths) else None
            start, bend, end = self.points(path)
            air = "air" in classes
            at += 1 if air else 2
            head = "air" if air else "cross" if tip[0] == ["lost"] else "arrow"
            assert classes[0] == kind and bend[1] == end[1] and (air or tip[1].startswith(f"M{end[0]} {end[1]}m"))
            yield (words, self.columns[start[0]], self.columns[end[0]] if head == "arrow" else None,
                      self.rows[start[1]], head, None if air else self.row(end[1]))
        assert at == len(paths)

    def notes(self):
        marks = [circle for circle in self.circles if circle[0] not in ("connection", "cut")]
        texts = [text for text in self.texts if text[1] == "start" and text[2] - 12 in self.columns]
        for (kind, x, y), text in zip(marks, texts, strict=True):
            assert text[0] == kind and (text[2] - 12, text[3]) in ((x, y + 3), (x, y - 5))
            yield self.rows[y], self.columns[x], text[4]

    def shown(self):
        steps = [words for _, anchor, x, _, words in self.texts if (anchor, x) == ("start", 44)]
        ending = [words for _, anchor, x, _, words in self.texts if (anchor, x) == ("start", 14) and words]
        learned, dropped = self.apart("connection"), self.apart("cut")
        assert ending[-1].startswith("dashes with a circle") == bool(learned or dropped)
        return {"nodes": list(self.columns.values()), "steps": list(zip(self.numbers, steps, strict=True)),
                "ways": sorted(self.ways(), key=str), "notes": sorted(self.notes()),
                "made": self.at_once("connection"), "learned": learned,
                "ended": self.at_once("cut"), "dropped": dropped,
                "ending": ending[:-6 if learned or dropped else -5]}

    def faults(self):
        """Words that leave the page or stand on other words."""
        boxes = []
        for _, anchor, x, y, words in self.texts:
            width = len(words) * CHARACTER
            left = x - {"start": 0, "middle": width / 2, "end": width}[anchor]
            boxes += [(left, y - ABOVE, left + width, y + BELOW, words)] if words else []
        yield from (f"{it[4]!r} leaves the page" for it in boxes
                    if it[0] < 0 or it[2] > self.width or it[3] > self.height)
        yield from (f"{a[4]!r} stands on {b[4]!r}" for at, a in enumerate(boxes) for b in boxes[at + 1:]
                    if a[0] < b[2] and b[0] < a[2] and a[1] < b[3] - 0.01 and b[1] < a[3] - 0.01)


def differences(schedule, site, drawn, *part):
    """What a picture shows that the model's run has not, and the other way round."""
    picture = Picture(drawn.read_text(), site)
    wanted, shown = Run(schedule.read_bytes(), site, *part).shown(), picture.shown()
    yield from (f"{key}: {shown[key]}\n  and not {wanted[key]}" for key in wanted if wanted[key] != shown[key])
    yield from picture.faults()


def schedules_in(folder):
    """The schedules, each with its site: one that stands in a folder of sites/ has the site of that name."""
    for path in sorted(folder.glob("*/*.schedule")):
        yield path, ROW_SITE
    for path in sorted(folder.glob("sites/*/*.schedule")):
        yield path, site_named(path.parent.name)


def pictures_of(schedule):
    """Its pictures: the one with its name, and those of a part of its steps, with the numbers of the first and the last."""
    whole = schedule.with_suffix(".svg")
    if whole.exists():
        yield (whole,)
    for path in sorted(schedule.parent.glob(f"{schedule.stem}.*-*.svg")):
        yield path, *map(int, path.stem.rsplit(".", 1)[1].split("-"))


def main(arguments):
    if len(arguments) != 1:
        print(__doc__, file=sys.stderr)
        return 2
    drawn = [(path, site, *it) for path, site in schedules_in(Path(arguments[0])) for it in pictures_of(path)]
    faults = [f"{it[2].name}: {fault}" for it in drawn for fault in differences(*it)]
    for fault in faults:
        print(fault)
    print(f"{len(drawn)} pictures: {len(faults)} faults")
    return 1 if faults else 0


if __name__ == "__main__":
    sys.exit(main(sys.argv[1:]))
