#!/usr/bin/env python3
"""A site file, read by the rules of docs/SITE.md: what site a text is, or the first fault that it has.

    site_file.py tell FILE         prints `accepted`, or the one line that is told of this file's fault
    site_file.py check FAULTS      does each row of a table of faults as its form says, and compares what is told

It knows nothing of the program. TOML itself is Python's (version 1.0), so that texts which are TOML only from version
1.1 on are none here. That a key is not what it has to be is told for the first such key: the keys of the file in the
order of `top_level`, then tables in the order of `site_in`, entry by entry, the keys of an entry in the order of the
function that reads it. Where the file has them, and how the file writes them, says nothing.
"""
import ipaddress
import re
import subprocess
import sys
import tomllib
from pathlib import Path

from site_data import CLIENT, FRONT, RELAY, TOLERANCES, Site, Tariff
from credit_control import CC_SERVICE_SPECIFIC_UNITS, CC_TIME, CC_TOTAL_OCTETS, LAST_KNOWN_CODE

TEXT_LIMIT, DEPTH_LIMIT = 16_777_216, 80
# The most entries of each table, and peers of a route.
ENTRIES = {"node": 64, "link": 256, "route": 256, "tariff": 1024, "account": 65_536}
PEERS_LIMIT = 16
# The most codes that a site makes known, and vendors that its nodes advertise.
KNOWN_LIMIT, ADVERTISE_LIMIT = 256, 16
KINDS = {kind: kind for kind in (RELAY, FRONT, CLIENT)}
UNITS = {"time": CC_TIME, "octets": CC_TOTAL_OCTETS, "units": CC_SERVICE_SPECIFIC_UNITS}
U32, I64 = 2**32 - 1, 2**63 - 1


class SiteFault(Exception):
    """A text that is no site, and the line that is told of it."""

    def __init__(self, name, key=None):
        super().__init__(f"site: {name} {key}" if key else f"site: {name}")


class NeededType:
    """In the place of a default: the key has to be there."""


NEEDED = NeededType()


def value_of(table, key, default=NEEDED):
    if key in table:
        return table[key]
    if default is NEEDED:
        raise SiteFault("Missing", key)
    return default


def has_type(key, value, kind):
    """A bool is no integer, and a moment no text."""
    if type(value) is not kind:
        raise SiteFault("WrongType", key)
    return value


def integer(table, key, least, greatest, default=NEEDED):
    value = has_type(key, value_of(table, key, default), int)
    if not least <= value <= greatest:
        raise SiteFault("OutOfRange", key)
    return value


def text(table, key):
    return has_type(key, value_of(table, key), str)


def one_of(table, key, values):
    """What one of these words stands for; they are compared with case."""
    word = text(table, key)
    if word not in values:
        raise SiteFault("OutOfRange", key)
    return values[word]


def is_visible(word, most):
    return 1 <= len(word) <= most and all("!" <= letter <= "~" for letter in word)


def identity(table, key):
    return checked_identity(key, text(table, key))


def checked_identity(key, word):
    if not is_visible(word, 255):
        raise SiteFault("BadIdentity", key)
    return word


def distinct(key, value, known):
    """Adds a value to those that are known."""
    if value in known:
        raise SiteFault("Twice", key)
    known.add(value)


def array(table, key, kind, default=NEEDED, most=None):
    """An array of which each item has this type; where there are too many, none is looked at."""
    items = has_type(key, value_of(table, key, default), list)
    if most is not None and len(items) > most:
        raise SiteFault("TooMany", key)
    for item in items:
        has_type(key, item, kind)
    return items


def entries(top, key):
    """The entries of a table, none where it is missing."""
    return array(top, key, dict, [], ENTRIES[key])


def top_level(top):
    """What stands above the tables, as arguments of a site."""
    return {"realm": identity(top, "realm"),
            "validity": integer(top, "validity", 1, 86_400),
            "limit": integer(top, "limit", 1, 1_048_576, 1_048_576),
            "workers": integer(top, "workers", 1, 16, 2),
            "queue": integer(top, "queue", 1, 1024, 1024),
            "vendors": vendors(top),
            "known": numbers_once(top, "known", LAST_KNOWN_CODE + 1, KNOWN_LIMIT),
            "tolerate": tolerances(top),
            "advertise": numbers_once(top, "advertise", 0, ADVERTISE_LIMIT),
            "currency": integer(top, "currency", 0, 999),
            "exponent": integer(top, "exponent", -9, 9),
            "watchdog": integer(top, "watchdog", 100, 600_000, 30_000)}


def vendors(top):
    found = array(top, "vendors", int, [10_415])
    if not all(0 <= vendor <= U32 for vendor in found):
        raise SiteFault("OutOfRange", "vendors")
    return tuple(found)


def numbers_once(top, key, least, most):
    """Numbers of 32 bits from the least, none twice: that all are in range is looked at first."""
    found = array(top, key, int, [], most)
    if not all(least <= number <= U32 for number in found):
        raise SiteFault("OutOfRange", key)
    if len(set(found)) < len(found):
        raise SiteFault("Twice", key)
    return tuple(found)


def tolerances(top):
    """Names of deviations, one by one."""
    found = []
    for word in array(top, "tolerate", str, []):
        if word not in TOLERANCES:
            raise SiteFault("UnknownName", "tolerate")
        if word in found:
            raise SiteFault("Twice", "tolerate")
        found.append(word)
    return tuple(found)


class Names:
    """The names of nodes, as they are spelled where they are made, found without ASCII case."""

    def __init__(self):
        self.kinds, self.spelled = {}, {}

    def add(self, name, kind):
        self.kinds[name] = kind
        self.spelled[folded(name)] = name

    def find(self, key, word, accepts=lambda name: True):
        name = self.spelled.get(folded(word))
        if name is None or not accepts(name):
            raise SiteFault("UnknownName", key)
        return name


def folded(word):
    """Without ASCII case, and other letters as they are."""
    return word.encode().lower()


def nodes_in(top):
    """The names of nodes, and their addresses."""
    names, known, addresses = Names(), set(), {}
    for entry in entries(top, "node"):
        name = text(entry, "name")
        distinct("name", folded(name), known)
        checked_identity("name", name)
        names.add(name, one_of(entry, "kind", KINDS))
        addresses[name] = address(entry)
    return names, addresses


def address(entry):
    """An address and a port, as 127.0.0.1:3868 or [::1]:3868, or None."""
    if "address" not in entry:
        return None
    parts = re.fullmatch(r"(?:([0-9.]+)|\[([0-9a-fA-F:.]+)\]):([0-9]{1,5})", text(entry, "address"))
    try:
        four, six, port = parts.groups()
        host = ipaddress.IPv4Address(four) if four else ipaddress.IPv6Address(six)
    except (AttributeError, ValueError):
        raise SiteFault("OutOfRange", "address") from None
    if int(port) > 65_535:
        raise SiteFault("OutOfRange", "address")
    return host, int(port)


def links_in(top, names):
    links, known = [], set()
    for entry in entries(top, "link"):
        ends = names.find("from", text(entry, "from")), names.find("to", text(entry, "to"))
        kinds = [names.kinds[name] for name in ends]
        if len(set(ends)) == 1 or frozenset(ends) in known or kinds in ([CLIENT, CLIENT], [FRONT, FRONT]):
            raise SiteFault("BadLink")
        known.add(frozenset(ends))
        links.append(ends)
    return links


def routes_in(top, names, links):
    """Peers by relay, realm and application."""
    routes, known, linked = {}, set(), {frozenset(link) for link in links}
    for entry in entries(top, "route"):
        at = names.find("at", text(entry, "at"), lambda name: names.kinds[name] == RELAY)
        realm = identity(entry, "realm")
        app = integer(entry, "app", 0, U32)
        distinct("route", (at, folded(realm), app), known)
        words = array(entry, "peers", str, most=PEERS_LIMIT)
        routes[at, realm, app] = [
            names.find("peers", word,
                       lambda name: names.kinds[name] != CLIENT and frozenset((at, name)) in linked) for word in words]
    return routes


def tariffs_in(top):
    """Tariffs by their Rating-Group, and by their Service-Identifier."""
    groups, idents = {}, {}
    for entry in entries(top, "tariff"):
        group, ident = tariff_name(entry, groups, idents)
        unit = one_of(entry, "kind", UNITS)
        block = integer(entry, "block", 1, 2**32)
        price = integer(entry, "price", 0, 1_048_576)
        most = U32 if unit == CC_TIME else I64
        quantum, greatest = (integer(entry, key, 1, most) for key in ("quantum", "greatest"))
        tariff = Tariff(unit, block, price, quantum, greatest)
        if group is None:
            idents[ident] = tariff
        else:
            groups[group] = tariff
    return groups, idents


def tariff_name(entry, groups, idents):
    """Either a Rating-Group or a Service-Identifier, which no tariff before has."""
    if "group" not in entry and "ident" not in entry:
        raise SiteFault("Missing", "group")
    group = ident = None
    if "group" in entry:
        group = integer(entry, "group", 0, U32)
        if group in groups:
            raise SiteFault("Twice", "group")
    if "ident" in entry:
        ident = integer(entry, "ident", 0, U32)
        if ident in idents or group is not None:
            raise SiteFault("Twice", "ident")
    return group, ident


def accounts_in(top):
    accounts, known = {}, set()
    for entry in entries(top, "account"):
        kind = integer(entry, "type", 0, 4)
        subscriber = text(entry, "id")
        if not is_visible(subscriber, 64):
            raise SiteFault("OutOfRange", "id")
        distinct("id", (kind, subscriber), known)
        accounts[kind, subscriber] = integer(entry, "opening", -2**62, 2**62)
    return accounts


def site_in(top):
    """The site of a text that is TOML."""
    first = top_level(top)
    names, addresses = nodes_in(top)
    links = links_in(top, names)
    routes = routes_in(top, names, links)
    groups, idents = tariffs_in(top)
    return Site(**first, nodes=names.kinds, links=links, routes=routes, group_tariffs=groups, ident_tariffs=idents,
                accounts=accounts_in(top), addresses=addresses)


def site_of(octets):
    """The site of a file's octets. Raises SiteFault with the first fault."""
    if len(octets) > TEXT_LIMIT:
        raise SiteFault("NotToml")
    try:
        written = octets.decode().removeprefix("\ufeff")
        if brackets(written) > DEPTH_LIMIT:
            raise SiteFault("NotToml")
        top = tomllib.loads(written)
    except (ValueError, RecursionError):
        raise SiteFault("NotToml") from None
    if not is_within_limits(top):
        raise SiteFault("NotToml")
    return site_in(top)


def brackets(written):
    """How deep brackets and braces stand in one another, outside of strings and comments."""
    strings = r"'''.*?'''|" + r'"""(?:\\.|[^\\])*?"""|' + r"""'[^'\n]*'|"(?:\\.|[^"\\\n])*"|#[^\n]*"""
    depth = deepest = 0
    for token in re.findall(strings + r"|[\[\]{}]", written, re.DOTALL):
        depth += (token in "[{") - (token in "]}") if len(token) == 1 else 0
        deepest = max(deepest, depth)
    return deepest


def is_within_limits(top):
    """Integers have 64 bits, and tables do not stand in one another deeper than is allowed."""
    ahead = [(top, 0)]
    while ahead:
        value, depth = ahead.pop()
        if type(value) is int and not -2**63 <= value <= I64 or depth > DEPTH_LIMIT:
            return False
        if isinstance(value, dict):
            ahead += [(inner, depth + isinstance(inner, dict)) for inner in value.values()]
        if isinstance(value, list):
            ahead += [(inner, depth) for inner in value]
    return True


def told(octets):
    try:
        site_of(octets)
        return "accepted"
    except SiteFault as fault:
        return str(fault)


def text_of_row(edit, base):
    """The site file of a row: after `text` what printf makes of the rest, else the base as sed edits it."""
    if edit.startswith("text "):
        return subprocess.run(["printf", "%b", edit.removeprefix("text ")], capture_output=True, check=True).stdout
    return subprocess.run(["sed", edit], input=base, capture_output=True, check=True).stdout


def check(table):
    """Rows of a table that are told otherwise, and edits that change nothing."""
    base = (table.parent / "row-site.toml").read_bytes()
    rows = [line.split("\t") for line in table.read_text().splitlines() if line and not line.startswith("#")]
    faults = 0
    for wanted, edit in rows:
        octets = text_of_row(edit, base)
        if octets == base and edit:
            print(f"changes nothing: {edit}")
            faults += 1
        if told(octets) != wanted:
            print(f"{told(octets)}, and not {wanted}: {edit}")
            faults += 1
    print(f"{len(rows)} rows: {faults} faults")
    return 1 if faults else 0


def main(arguments):
    match arguments:
        case ["tell", path]:
            print(told(Path(path).read_bytes()))
            return 0
        case ["check", path]:
            return check(Path(path))
    print(__doc__, file=sys.stderr)
    return 2


if __name__ == "__main__":
    sys.exit(main(sys.argv[1:]))
