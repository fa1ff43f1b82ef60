"""Diameter messages (RFC 6733): the header, AVPs, and the answer by which a node refuses a request.

Octets are read as the RFC says; what this farm adds is named where it stands.
"""
from dataclasses import dataclass, replace

REQUEST, PROXIABLE, ERROR, RETRANSMITTED = 0x80, 0x40, 0x20, 0x10
VENDOR, MANDATORY = 0x80, 0x40

HEADER_OCTETS, MESSAGE_LIMIT = 20, 262_144
# A Failed-AVP with more octets than this holds the AVP's least form alone.
FAILED_LIMIT = 8192
# Session-Id and Proxy-Info, which answers give back, take at most so many octets together.
CARRIED_LIMIT = 49_152

SESSION_ID, ORIGIN_HOST, ORIGIN_REALM, RESULT_CODE, FAILED_AVP = 263, 264, 296, 268, 279
DESTINATION_HOST, DESTINATION_REALM, ROUTE_RECORD = 293, 283, 282
PROXY_INFO, PROXY_HOST, PROXY_STATE = 284, 280, 33

COMMAND_UNSUPPORTED, UNABLE_TO_DELIVER, REALM_NOT_SERVED, TOO_BUSY, LOOP_DETECTED = 3001, 3002, 3003, 3004, 3005
APPLICATION_UNSUPPORTED, INVALID_AVP_LENGTH = 3007, 5014

# How many octets the values of AVPs without a vendor have, where their kind tells it.
FOUR_OCTETS = {258, 259, 265, 266, 267, 268, 278, 299, 415, 420, 425, 432, 439, 448, 429, 55,
               273, 295, 416, 418, 422, 426, 427, 428, 436, 449, 450, 455}
EIGHT_OCTETS = {412, 414, 417, 419, 421, 447}


def octets_of_kind(code, vendor):
    """How long the value of such an AVP is; 0 where it may have any length."""
    if vendor == 0 and code in FOUR_OCTETS:
        return 4
    return 8 if vendor == 0 and code in EIGHT_OCTETS else 0


@dataclass(frozen=True)
class Avp:
    """`vendor` is 0 where the flag V is clear."""

    code: int
    value: bytes
    flags: int = MANDATORY
    vendor: int = 0

    def octets(self):
        vendor = self.vendor.to_bytes(4) if self.flags & VENDOR else b""
        length = 8 + len(vendor) + len(self.value)
        head = self.code.to_bytes(4) + bytes([self.flags]) + length.to_bytes(3)
        return head + vendor + self.value + bytes(-length % 4)

    def has_code(self, *codes):
        """Whether this is one of these AVPs of no vendor."""
        return self.vendor == 0 and self.code in codes

    def least(self):
        """The least form, for Failed-AVP: a value of zeros, as long as its kind asks for."""
        return replace(self, value=bytes(octets_of_kind(self.code, self.vendor)))


def number(code, value, octets=4):
    return Avp(code, value.to_bytes(octets))


def text(code, value):
    return Avp(code, value.encode())


def group(code, avps):
    return Avp(code, spelled(avps))


def spelled(avps):
    return b"".join(avp.octets() for avp in avps)


class NoList(Exception):
    """Octets that are no list of AVPs: `failed` is the AVP at which they cannot go on, None where it has no header."""

    def __init__(self, failed):
        super().__init__()
        self.failed = failed


def split(octets):
    """The AVPs that these octets spell; the last one may lack its padding."""
    avps, at = [], 0
    while at < len(octets):
        rest = octets[at:]
        if len(rest) < 8:
            raise NoList(None)
        code, flags, length = int.from_bytes(rest[:4]), rest[4], int.from_bytes(rest[5:8])
        start = 12 if flags & VENDOR else 8
        vendor = int.from_bytes(rest[8:12]) if flags & VENDOR and len(rest) >= 12 else 0
        if not start <= length <= len(rest):
            raise NoList(Avp(code, b"", flags, vendor).least())
        avps.append(Avp(code, rest[start:length], flags, vendor))
        at += length + -length % 4
    return avps


def first(avps, code):
    """The first AVP of this code, or None."""
    return next((avp for avp in avps if avp.has_code(code)), None)


@dataclass(frozen=True)
class Message:
    """Reserved bits of the header's flags are no part of a message."""

    flags: int
    command: int
    application: int
    hop: int
    end: int
    body: bytes

    @staticmethod
    def read(octets):
        """The one whole message that these octets are, or None."""
        if len(octets) < HEADER_OCTETS or octets[0] != 1 or int.from_bytes(octets[1:4]) != len(octets):
            return None
        if len(octets) % 4 or len(octets) > MESSAGE_LIMIT:
            return None
        numbers = [int.from_bytes(octets[at:at + 4]) for at in (8, 12, 16)]
        return Message(octets[4] & 0xF0, int.from_bytes(octets[5:8]), *numbers, octets[HEADER_OCTETS:])

    def octets(self):
        head = b"\x01" + self.length.to_bytes(3) + bytes([self.flags]) + self.command.to_bytes(3)
        return head + b"".join(part.to_bytes(4) for part in (self.application, self.hop, self.end)) + self.body

    @property
    def length(self):
        return HEADER_OCTETS + len(self.body)

    @property
    def is_request(self):
        return bool(self.flags & REQUEST)

    def answer(self, avps, error=0):
        """An answer to this request: its identifiers, and of its flags P alone."""
        return replace(self, flags=self.flags & PROXIABLE | error, body=spelled(avps))


def carries_too_much(avps):
    return sum(len(avp.octets()) for avp in avps if avp.has_code(SESSION_ID, PROXY_INFO)) > CARRIED_LIMIT


def carried(message):
    """What an answer gives back: the first Session-Id, with the flag M alone, and each Proxy-Info as it came."""
    try:
        avps = split(message.body)
    except NoList:
        avps = []
    if carries_too_much(avps):
        avps = []
    session = first(avps, SESSION_ID)
    return [Avp(SESSION_ID, session.value)] if session else [], [avp for avp in avps if avp.has_code(PROXY_INFO)]


def origin(node, realm):
    return [text(ORIGIN_HOST, node), text(ORIGIN_REALM, realm)]


def refusal(node, realm, request, code, failed=None):
    """The answer by which a node refuses a request, with the flag E."""
    session, proxies = carried(request)
    failed = [group(FAILED_AVP, [failed])] if failed else []
    return request.answer(session + origin(node, realm) + [number(RESULT_CODE, code)] + failed + proxies, ERROR)
