"""Records: what the processes of a live farm write down, a line for each event; docs/RECORD.md has the format."""
import re
from dataclasses import dataclass, field

from diameter import Message
from world import BadSchedule, message_of, node_of, number_of

# The words of a record, each with what follows it.
FORMS = {"time": "number", "accept": "number node node number", "dial": "number node node number", "opened": "number",
         "deliver": "number message", "send": "number message", "drop": "number", "out": "number message",
         "charge": "node number number number age answer", "refuse": "node number answer", "sweep": "number number",
         "entries": "number open number", "account": "number text balance amount reserved amount", "end": "",
         "lost": ""}
UNFINISHED = "~"


class Finding(Exception):
    """What is wrong with records, with the file and the line where it is told; line 0 is none."""

    def __init__(self, file, line, why):
        super().__init__(f"{file}: line {line}: {why}" if line else f"{file}: {why}")


@dataclass
class Event:
    """A line of a record with what was sent for it. `is_last` where nothing of this start of the process is told behind it."""

    file: str
    line: int
    word: str
    words: list
    outs: list = field(default_factory=list)
    is_last: bool = False

    def fault(self, why):
        return Finding(self.file, self.line, why)


def spelled(word, *arguments):
    """A line of a record."""
    words = [argument.octets().hex() if isinstance(argument, Message) else "-" if argument is None else str(argument)
             for argument in arguments]
    return " ".join([word, *words]) + "\n"


def beginning(names, moment):
    """What a process writes first: an end for a line that another one has left unfinished, and whose record it is."""
    return f" {UNFINISHED}\nbegin {' '.join(names)} at {moment}\n"


def whole_lines(octets):
    """The lines that were finished, with their numbers: not the last one where it lacks its line feed."""
    for number, line in enumerate(octets.split(b"\n")[:-1], 1):
        words = [word.decode("latin-1") for word in line.split(b" ") if word]
        if words and words[-1] != UNFINISHED and not line.startswith(b"#"):
            yield number, words


def read_word(kind, word, site):
    match kind:
        case "node":
            return node_of(word, site)
        case "number":
            return number_of(word)
        case "amount":
            return amount_of(word)
        case "message":
            return message_of(word)
        case "answer":
            return None if word == "-" else message_of(word)
        case "age" if word in ("new", "kept"):
            return word
        case "text":
            return word
    if word != kind:
        raise BadSchedule("unknown word")
    return word


def amount_of(word):
    """A whole number, which may be below zero."""
    if not re.fullmatch("-?[0-9]{1,39}", word):
        raise BadSchedule("bad number")
    return int(word)


def line_of(file, number, words, site):
    """The event of a line."""
    word, *rest = words
    try:
        if word == "begin":
            if len(rest) < 3 or rest[-2] != "at":
                raise BadSchedule("wrong count")
            return Event(file, number, word, [node_of(name, site) for name in rest[:-2]])
        if word not in FORMS:
            raise BadSchedule("unknown word")
        kinds = FORMS[word].split()
        if len(rest) != len(kinds):
            raise BadSchedule("wrong count")
        return Event(file, number, word, [read_word(kind, it, site) for kind, it in zip(kinds, rest)])
    except BadSchedule as fault:
        raise Finding(file, number, str(fault)) from None


def events_of(file, octets, site):
    """The events of a record, each with what was sent for it."""
    held = None
    for number, words in whole_lines(octets):
        event = line_of(file, number, words, site)
        if event.word == "out" and held and held.word in ("deliver", "drop"):
            held.outs.append(tuple(event.words))
            continue
        if event.word == "out":
            raise event.fault("sent for no event")
        if event.word in ("time", "end"):
            continue
        if held is None and event.word != "begin":
            raise event.fault("the record does not begin")
        if held:
            held.is_last = event.word == "begin"
            yield held
        held = event
        if event.word == "lost":
            raise event.fault("the record ends here, since it could not be written")
    if held:
        held.is_last = True
        yield held
