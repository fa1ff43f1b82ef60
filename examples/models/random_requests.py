"""Messages that clients send, chosen at random where the model's farm stands: most are requests that are charged, many
have something odd in them that is no fault, and some are broken in any way that octets can be.
"""
from dataclasses import replace

from credit_control import (AUTH_APPLICATION_ID, CC_REQUEST_NUMBER, CC_REQUEST_TYPE, CC_TIME, COMMAND_ONCE, COUNTS,
                            CREDIT_CONTROL, EVENT, GROUP_ONCE, INITIAL, MULTIPLE_SERVICES, RATING_GROUP,
                            REQUESTED_ACTION, REQUESTED_UNITS, SERVICE_CONTEXT_ID, SERVICE_IDENTIFIER, SERVICES_LIMIT,
                            SUBSCRIPTION_ID, SUBSCRIPTION_ID_DATA, SUBSCRIPTION_ID_TYPE, TERMINATION, UPDATE,
                            USED_UNITS, VENDOR_SPECIFIC_APPLICATION_ID)
from diameter import (CARRIED_LIMIT, DESTINATION_HOST, DESTINATION_REALM, ERROR, FAILED_LIMIT, MANDATORY, MESSAGE_LIMIT,
                      ORIGIN_HOST, ORIGIN_REALM, PROXIABLE, PROXY_INFO, REQUEST, RETRANSMITTED,
                      ROUTE_RECORD, SESSION_ID, VENDOR, Avp, Message, NoList, first, group, number, octets_of_kind,
                      spelled, split, text)
from messages import PROXY, again, appended
from random_sites import REALMS, SERVICES, SUBSCRIBERS
from site_data import APPLICATION_IN_GROUP, CREDIT_CONTROL_APPLICATION, ORIGIN_TWICE, RELAY

GOING_ON = [UPDATE] * 6 + [TERMINATION] * 2 + [EVENT] * 2 + [INITIAL]
NOT_YET = [INITIAL] * 5 + [UPDATE, TERMINATION] + [EVENT] * 5
SESSIONS = 4
NUMBERS = [0, 1, 2, 2**32 - 1]
HOPS = [0, 1, 2, 2**32 - 1]
ASKED = [0, 1, 59, 61, 999, 1000, 1001, 4500, 10_001, 2**32 - 1, 2**63, 2**64 - 1]
USED = [0, 1, 60, 999, 1000, 1001, 3000]
LARGE_USED = [10**6, 2**32, 2**63, 2**64 - 1]
EVENT_TIMESTAMP, CC_INPUT_OCTETS, USER_NAME, ORIGIN_STATE_ID, CC_SUB_SESSION_ID = 55, 412, 1, 278, 419
SERVICE_INFORMATION, CODE_WITHOUT_ROW, VENDOR_3GPP = 873, 440, 10_415
VENDOR_ID, RECORD_TYPE, RECORD_NUMBER = 266, 480, 485
OTHER_APPLICATIONS = [0, 3, 5, 2**24 + 4, 2**32 - 1]
ODD_CODES = [0, CODE_WITHOUT_ROW, 461, 462, 9999, SERVICE_INFORMATION, SESSION_ID, MULTIPLE_SERVICES, PROXY_INFO,
             CC_INPUT_OCTETS, 2**32 - 1]
ODD_VENDORS = [0, 1, 9, VENDOR_3GPP, 2**32 - 1]
RESERVED_FLAGS = 0x0F


class RandomRequests:
    """What clients of a farm send. It asks the farm's book which sessions are open, and what accounts have free."""

    def __init__(self, dice, world):
        self.dice, self.world, self.site, self.sent = dice, world, world.site, []
        self.hosts = [name for name in self.site.nodes] + ["f9.example"]
        self.realms = [self.site.realm] * 4 + [realm for _, realm, _ in self.site.routes]
        self.deviations = [deviation for deviation, is_taken in DEVIATIONS.items() if is_taken(self.site)]
        # How many messages there are for one that is broken.
        self.care = dice.one_of([1, 3, 6, 12, 40])

    @property
    def services(self):
        """The names that have tariffs now."""
        groups, idents = self.world.book.tariffs
        return [(rating_group, None) for rating_group in groups] + [(None, identifier) for identifier in idents]

    def next(self, client):
        """The next message of a client, as it is read from a schedule."""
        if self.sent and self.dice.one_in(5):
            message = self.repeated(self.dice.one_of(self.sent[-8:]))
        else:
            message = self.fresh(client)
            self.sent.append(message)
        return Message.read(message.octets())

    def repeated(self, message):
        """Sent again: with the flag T, without it, or all of it as it was."""
        hop = self.dice.one_of(HOPS)
        return self.dice.one_of([again(message, hop), again(message, hop), replace(message, hop=hop), message])

    def fresh(self, client):
        session = self.session(client)
        avps = self.asking(client, session, self.kind(session))
        if self.dice.one_in(3):
            avps = self.with_any(avps, HARMLESS)
        if self.dice.one_in(3 if self.deviations else 30):
            avps = self.with_any(avps, self.deviations or list(DEVIATIONS))
        if self.dice.one_in(self.care):
            avps = self.with_any(avps, HARMFUL)
        message = Message(REQUEST | PROXIABLE, CREDIT_CONTROL, CREDIT_CONTROL_APPLICATION, self.dice.one_of(HOPS),
                          self.dice.one_of(HOPS + [self.dice.next()] * 4), spelled(avps))
        if self.dice.one_in(8):
            message = replace(message, flags=message.flags | RETRANSMITTED)
        if self.dice.one_in(2 * self.care):
            message = self.dice.one_of(ODD_HEADERS)(self, message)
        if self.dice.one_in(3 * self.care):
            message = replace(message, body=self.dice.one_of(ODD_BODIES)(self, message.body))
        return self.filled(message, client) if self.dice.one_in(80) else message

    def with_any(self, avps, changes):
        for _ in range(1 + self.dice.below(2)):
            avps = self.dice.one_of(changes)(self, avps)
        return avps

    # ---- Requests that are charged

    def session(self, client):
        """One of few sessions; some belong to several clients."""
        return f"{self.dice.one_of([client, client, client, 'all'])};{self.dice.below(SESSIONS)}"

    def kind(self, session):
        return self.dice.one_of(GOING_ON if session in self.world.book.sessions else NOT_YET)

    def place(self, session):
        """Mostly a CC-Request-Number that this session has not used yet."""
        if self.dice.one_in(12):
            return self.dice.one_of(NUMBERS)
        taken = [place for name, place in self.world.book.kept if name == session and place < NUMBERS[-1]]
        return max(taken, default=-1) + 1 + self.dice.one_of([0, 0, 0, 1])

    def asking(self, client, session, kind):
        """The AVPs of a request."""
        action = self.dice.one_of([0, 0, 0, 1, 2, 3]) if kind == EVENT or self.dice.one_in(30) else None
        realm = self.realm()
        subscribers = self.named()
        avps = [text(SESSION_ID, session), text(ORIGIN_HOST, client), text(ORIGIN_REALM, "example"),
                text(DESTINATION_REALM, realm), number(AUTH_APPLICATION_ID, CREDIT_CONTROL_APPLICATION),
                text(SERVICE_CONTEXT_ID, "32251@3gpp.org"), number(CC_REQUEST_TYPE, kind),
                number(CC_REQUEST_NUMBER, self.place(session))]
        avps += [text(DESTINATION_HOST, self.host())] if self.dice.one_in(9) else []
        avps += [] if action is None else [number(REQUESTED_ACTION, action)]
        avps += [subscription(*subscriber) for subscriber in subscribers]
        return avps + self.asked_services(kind, self.account(session, subscribers))

    def realm(self):
        realm = self.dice.one_of(REALMS + ["nowhere.example"] if self.dice.one_in(12) else self.realms)
        return realm.upper() if self.dice.one_in(10) else realm

    def host(self):
        host = self.dice.one_of(self.hosts)
        return host.upper() if self.dice.one_in(5) else host

    def named(self):
        """Types and texts of Subscription-Ids: mostly one, which has an account."""
        subscribers = list(self.world.book.balances)
        named = [self.dice.one_of(subscribers)] if subscribers and not self.dice.one_in(12) else []
        while self.dice.one_in(7):
            other = self.dice.below(6), self.dice.one_of(SUBSCRIBERS + ["", "é", "499"])
            named.insert(self.dice.below(len(named) + 1), other)
        return named

    def account(self, session, subscribers):
        """The account that such a request charges, or None."""
        opened = self.world.book.sessions.get(session)
        return opened.account if opened else next((it for it in subscribers if it in self.world.book.balances), None)

    def asked_services(self, kind, account):
        if self.dice.one_in(8):
            return self.bare_service(kind, account)
        count = self.dice.one_of([0, 1, 1, 1, 1, 1, 1, 2, 2, 3, 5])
        names = [self.service_name() for _ in range(count)]
        if self.dice.one_in(300):
            names = [(None, identifier) for identifier in range(SERVICES_LIMIT + self.dice.below(2))]
        if not self.dice.one_in(15):
            names = list(dict.fromkeys(names))
        services = [self.service(name, kind, account) for name in names]
        return services + (self.bare_service(kind, account) if self.dice.one_in(25) else [])

    def service_name(self):
        rating_group, identifier = self.dice.one_of(self.services or [(None, None)])
        if self.dice.one_in(12):
            rating_group = self.dice.one_of([None, *SERVICES])
        if self.dice.one_in(6):
            identifier = self.dice.one_of([None, *SERVICES])
        return rating_group, identifier

    def bare_service(self, kind, account):
        """A service of the command itself."""
        identifiers = [identifier for _, identifier in self.services if identifier is not None]
        identifier = self.dice.one_of([*identifiers * 2, *SERVICES[:2], None])
        avps = self.counted_units((None, identifier), kind, account)
        return avps + ([] if identifier is None else [number(SERVICE_IDENTIFIER, identifier)])

    def service(self, name, kind, account):
        rating_group, identifier = name
        avps = self.counted_units(name, kind, account)
        avps += [] if identifier is None else [number(SERVICE_IDENTIFIER, identifier)]
        avps += [number(SERVICE_IDENTIFIER, 8)] if identifier is not None and self.dice.one_in(10) else []
        avps += [] if rating_group is None else [number(RATING_GROUP, rating_group)]
        return group(MULTIPLE_SERVICES, self.shuffled(avps) if self.dice.one_in(5) and identifier is None else avps)

    def counted_units(self, name, kind, account):
        """Requested- and Used-Service-Units of a service."""
        tariff = self.world.book.tariff_named(*name)
        avps = []
        if not self.dice.one_in(2 if kind == TERMINATION else 10):
            avps.append(self.units(REQUESTED_UNITS, tariff, self.asked_count(tariff, account)))
        while self.dice.one_in(8 if kind in (INITIAL, EVENT) else 2):
            used = LARGE_USED if self.dice.one_in(40) else USED
            avps.append(self.units(USED_UNITS, tariff, self.dice.one_of(used)))
        return avps

    def asked_count(self, tariff, account):
        """A count, None for none; often about a whole number of blocks, or about what is free."""
        if self.dice.one_in(4):
            return None
        if tariff is None or self.dice.one_in(3):
            return self.dice.one_of(ASKED)
        about = self.dice.one_of([tariff.block, 3 * tariff.block, tariff.quantum, tariff.greatest])
        if account and tariff.price and self.dice.one_in(2):
            about = max(self.world.book.free(account), 0) // tariff.price * tariff.block
        return min(max(about + self.dice.below(3) - 1, 0), 2**64 - 1)

    def units(self, code, tariff, count):
        """One group of units, with a count of the tariff's kind, now and then of another, or of several."""
        unit = self.dice.one_of(COUNTS) if tariff is None or self.dice.one_in(15) else tariff.unit
        avps = [] if count is None else [counted(unit, count)]
        avps += [counted(it, self.dice.one_of(USED)) for it in COUNTS if it != unit and self.dice.one_in(15)]
        avps += [number(CC_INPUT_OCTETS, 1, 8)] if self.dice.one_in(15) else []
        return group(code, avps)

    def shuffled(self, avps):
        left, chosen = list(avps), []
        while left:
            chosen.append(left.pop(self.dice.below(len(left))))
        return chosen

    def octets(self, count):
        return bytes(self.dice.below(256) for _ in range(count))

    def inserted(self, avps, avp):
        """With one AVP more somewhere, not before the first."""
        at = min(len(avps), 1 + self.dice.below(len(avps) + 1))
        return [*avps[:at], avp, *avps[at:]]

    # ---- What is odd in a request, and no fault where it stands alone

    def with_proxy_info(self, avps):
        flags = self.dice.one_of([0, MANDATORY, 0x60, VENDOR | MANDATORY])
        other = Avp(PROXY_INFO, self.octets(self.dice.below(9)), flags)
        return self.inserted(avps, self.dice.one_of([PROXY, PROXY, other]))

    def with_route_record(self, avps):
        relays = [name for name, kind in self.site.nodes.items() if kind == RELAY]
        name = self.dice.one_of(relays + ["R1.EXAMPLE", "r9.example", "f1.example", "", "r1.example.org"])
        of_vendor = Avp(ROUTE_RECORD, name.encode(), MANDATORY | VENDOR, self.dice.one_of([0, VENDOR_3GPP]))
        return self.inserted(avps, self.dice.one_of([text(ROUTE_RECORD, name), of_vendor]))

    def with_timestamp(self, avps):
        return self.inserted(avps, Avp(EVENT_TIMESTAMP, self.octets(self.dice.one_of([4, 4, 3]))))

    def with_opaque(self, avps):
        """An AVP that is known and whose value nobody looks at, or an unknown one without the flag M."""
        known = self.dice.one_of([USER_NAME, ORIGIN_STATE_ID, CC_SUB_SESSION_ID, CODE_WITHOUT_ROW])
        listed = self.dice.one_of([*self.site.vendors, 9])
        opaque = [Avp(known, self.octets(self.dice.below(9))),
                  Avp(SERVICE_INFORMATION, self.octets(self.dice.below(9)), VENDOR | MANDATORY, listed),
                  Avp(self.dice.one_of(ODD_CODES), b"", VENDOR, 9), Avp(9999, self.octets(3), 0)]
        return self.inserted(avps, self.dice.one_of(opaque))

    def with_second_destination(self, avps):
        code = self.dice.one_of([DESTINATION_HOST, DESTINATION_HOST, DESTINATION_REALM])
        return self.inserted(avps, text(code, self.host() if code == DESTINATION_HOST else self.realm()))

    def with_first_destination_host(self, avps):
        return [*avps[:1], text(DESTINATION_HOST, self.host()), *avps[1:]]

    def in_another_order(self, avps):
        return avps[:1] + self.shuffled(avps[1:])

    def with_other_flags(self, avps):
        """Flags of one AVP; V with vendor 0 is no vendor."""
        at = self.dice.below(len(avps))
        flags = self.dice.one_of([0, 0x20, MANDATORY, 0x60, VENDOR, VENDOR | MANDATORY, 0x5F, 0xFF])
        return [*avps[:at], replace(avps[at], flags=flags, vendor=0), *avps[at + 1:]]

    def inside(self, avps, changes):
        """With a change in one of its groups, and in groups of that one; a group may lack its last padding."""
        places = [at for at, avp in enumerate(avps) if avp.has_code(*GROUP_ONCE)]
        if not places:
            return avps
        at = self.dice.one_of(places)
        try:
            inner = split(avps[at].value)
        except NoList:
            return avps
        inner = (self.dice.one_of(changes) if inner else It.with_odd_avp)(self, inner)
        octets = spelled(inner)
        if inner and self.dice.one_in(3):
            octets = octets[:len(octets) - -len(inner[-1].value) % 4]
        return [*avps[:at], replace(avps[at], value=octets), *avps[at + 1:]]

    def harmless_inside(self, avps):
        return self.inside(avps, HARMLESS_INSIDE)

    # ---- Deviations that a site may take, and what would use them to say two things

    def with_known_code(self, avps):
        """An AVP with M whose code is none of the dictionary's, in the command or in a group."""
        code = self.dice.one_of([*self.site.known[:3], RECORD_TYPE, RECORD_NUMBER])
        of_vendor = Avp(code, self.octets(4), VENDOR | MANDATORY, self.dice.one_of(ODD_VENDORS))
        avp = of_vendor if self.dice.one_in(8) else Avp(code, self.octets(self.dice.below(9)))
        if self.dice.one_in(4):
            return self.inside(avps, [lambda it, inner: [*inner, avp]])
        return self.inserted(avps, avp)

    def with_origin_again(self, avps):
        """Who sends is said again: with the same octets, in other letters, or as another name."""
        said = [avp for avp in avps if avp.has_code(ORIGIN_HOST, ORIGIN_REALM)]
        if not said:
            return avps
        avp = self.dice.one_of(said)
        if self.dice.one_in(6):
            avp = replace(avp, value=self.dice.one_of([avp.value.swapcase(), self.host().encode(), avp.value + b"."]))
        return self.inserted(avps, avp)

    def with_application_inside(self, avps):
        """The application in a group of a vendor, mostly there alone."""
        count = self.dice.one_of([1, 1, 1, 2, 0])
        inside = [number(VENDOR_ID, VENDOR_3GPP), *(self.application() for _ in range(count))]
        octets = spelled(self.shuffled(inside))
        if self.dice.one_in(12):
            octets = octets[:max(len(octets) - self.dice.one_of([1, 3, 4]), 0)]
        if not self.dice.one_in(3):
            avps = [avp for avp in avps if not avp.has_code(AUTH_APPLICATION_ID)]
        return self.inserted(avps, Avp(VENDOR_SPECIFIC_APPLICATION_ID, octets))

    def application(self):
        if not self.dice.one_in(4):
            return number(AUTH_APPLICATION_ID, CREDIT_CONTROL_APPLICATION)
        odd = [number(AUTH_APPLICATION_ID, self.dice.one_of(OTHER_APPLICATIONS)), Avp(AUTH_APPLICATION_ID, b"\4"),
               number(AUTH_APPLICATION_ID, CREDIT_CONTROL_APPLICATION, 8),
               Avp(AUTH_APPLICATION_ID, CREDIT_CONTROL_APPLICATION.to_bytes(4), VENDOR | MANDATORY, VENDOR_3GPP)]
        return self.dice.one_of(odd)

    # ---- What is broken in a list of AVPs

    def harmful_inside(self, avps):
        return self.inside(avps, HARMFUL)

    def without_one(self, avps):
        at = self.dice.below(len(avps))
        return avps[:at] + avps[at + 1:]

    def with_one_twice(self, avps):
        return self.inserted(avps, self.dice.one_of(avps))

    def with_another_first(self, avps):
        return [avps[-1], *avps]

    def with_another_length(self, avps):
        """One value of another length."""
        at = self.dice.below(len(avps))
        value = avps[at].value
        other = self.dice.one_of([b"", value[:3], value + b"\0", value * 2, value[1:]])
        return [*avps[:at], replace(avps[at], value=other), *avps[at + 1:]]

    def with_another_value(self, avps):
        """One value of any octets: numbers out of their range, texts that are none, groups that do not split."""
        at = self.dice.below(len(avps))
        small = self.dice.below(7).to_bytes(len(avps[at].value)) if avps[at].value else b""
        value = self.dice.one_of([self.octets(len(avps[at].value)), small, b"\xff" + avps[at].value[1:]])
        return [*avps[:at], replace(avps[at], value=value), *avps[at + 1:]]

    def with_odd_avp(self, avps):
        flags = self.dice.one_of([0, MANDATORY, MANDATORY, MANDATORY | VENDOR, VENDOR, 0xFF])
        vendor = self.dice.one_of(ODD_VENDORS) if flags & VENDOR else 0
        return self.inserted(avps, Avp(self.dice.one_of(ODD_CODES), self.octets(self.dice.below(9)), flags, vendor))

    def with_one_nested(self, avps):
        """One AVP inside itself, as a group of its own code, once or deeper than groups may be."""
        at = self.dice.below(len(avps))
        avp = avps[at]
        for _ in range(1 + self.dice.below(6)):
            avp = replace(avp, value=avp.octets() + (b"" if self.dice.one_in(3) else avps[at].octets()))
        return [*avps[:at], avp, *avps[at + 1:]]

    def with_one_often(self, avps):
        """One AVP many times in a row."""
        at = self.dice.below(len(avps))
        return avps[:at] + [avps[at]] * (2 + self.dice.below(60)) + avps[at:]

    def with_any_known(self, avps):
        """One AVP that stands in commands or groups, in a place where it may not belong."""
        code = self.dice.one_of([*COMMAND_ONCE, *COUNTS, SUBSCRIPTION_ID_DATA, SUBSCRIPTION_ID_TYPE, RATING_GROUP,
                                 *GROUP_ONCE])
        length = self.dice.one_of([octets_of_kind(code, 0), self.dice.below(9)])
        return self.inserted(avps, Avp(code, self.octets(length)))

    # ---- What is odd in a header, and broken in a body

    def as_answer(self, message):
        return replace(message, flags=message.flags & ~REQUEST | self.dice.one_of([0, ERROR]))

    def of_other_command(self, message):
        return replace(message, command=self.dice.one_of([0, 257, 271, 280, 282, 2**24 - 1]))

    def of_other_application(self, message):
        return replace(message, application=self.dice.one_of([0, 3, 5, 2**32 - 1]))

    def not_proxiable(self, message):
        return replace(message, flags=message.flags & ~PROXIABLE)

    def with_odd_flags(self, message):
        return replace(message, flags=message.flags | self.dice.one_of([ERROR, ERROR | RETRANSMITTED, RESERVED_FLAGS]))

    def with_bits_flipped(self, message):
        """Some bits of the header behind its length, and of the body, are others."""
        octets = bytearray(message.octets())
        for _ in range(1 + self.dice.below(8)):
            octets[4 + self.dice.below(len(octets) - 4)] ^= 1 << self.dice.below(8)
        return Message.read(bytes(octets))

    def cut_off(self, body):
        return body[:4 * self.dice.below(len(body) // 4 + 1)]

    def with_zeros(self, body):
        return body + bytes(4 * (1 + self.dice.below(3)))

    def of_any_octets(self, body):
        return self.octets(4 * self.dice.below(16))

    def with_another_octet(self, body):
        if not body:
            return body
        at = self.dice.below(len(body))
        return body[:at] + self.octets(1) + body[at + 1:]

    def with_odd_padding(self, body):
        """Padding of the AVPs of the command that is not zero."""
        try:
            avps = split(body)
        except NoList:
            return body
        return b"".join(octets if not pad else octets[:-pad] + self.octets(pad)
                        for octets, pad in ((avp.octets(), -len(avp.value) % 4) for avp in avps))

    def with_another_avp_length(self, body):
        """The length of one AVP, in the command or in a group, is another one."""
        at = 4 * self.dice.below(len(body) // 4) if body else 0
        length = self.dice.one_of([0, 7, 8, 11, 12, 13, 16, 255, 2**24 - 1])
        return body[:at + 5] + length.to_bytes(3) + body[at + 8:] if len(body) >= at + 8 else body

    def filled(self, message, client):
        """With an AVP that takes as many octets as some limit allows, or about that."""
        room = MESSAGE_LIMIT - message.length
        room_with_route_record = room - len(text(ROUTE_RECORD, client).octets())
        session = first_octets(message, SESSION_ID)
        carried = PROXY_INFO, MANDATORY, CARRIED_LIMIT - session
        sizes = [carried, carried, carried, (9999, MANDATORY, FAILED_LIMIT), (9999, 0, room),
                 (9999, 0, room_with_route_record), (9999, 0, room_with_route_record),
                 (SESSION_ID, MANDATORY, FAILED_LIMIT), (MULTIPLE_SERVICES, MANDATORY, FAILED_LIMIT),
                 (PROXY_INFO, MANDATORY, room)]
        code, flags, octets = self.dice.one_of(sizes)
        octets = min(octets + self.dice.one_of([-8, -4, -1, 0, 0, 1, 4, 8]), room)
        return appended(message, Avp(code, bytes(max(octets - 8, 0)), flags)) if room >= 8 else message


def first_octets(message, code):
    """How many octets the first AVP of this code takes, 0 where there is none."""
    try:
        avp = first(split(message.body), code)
    except NoList:
        return 0
    return len(avp.octets()) if avp else 0


def subscription(kind, subscriber):
    return group(SUBSCRIPTION_ID, [number(SUBSCRIPTION_ID_TYPE, kind), text(SUBSCRIPTION_ID_DATA, subscriber)])


def counted(unit, count):
    """A count of units; seconds have four octets."""
    return number(unit, min(count, 2**32 - 1) if unit == CC_TIME else count, octets_of_kind(unit, 0))


It = RandomRequests
# Each with whether a site takes it.
DEVIATIONS = {It.with_known_code: lambda site: bool(site.known),
              It.with_origin_again: lambda site: ORIGIN_TWICE in site.tolerate,
              It.with_application_inside: lambda site: APPLICATION_IN_GROUP in site.tolerate}
HARMLESS_INSIDE = [It.with_opaque, It.in_another_order, It.with_other_flags, It.harmless_inside]
HARMLESS = [It.with_proxy_info, It.with_proxy_info, It.with_route_record, It.with_timestamp, It.with_opaque,
            It.with_second_destination, It.with_first_destination_host, It.in_another_order, It.with_other_flags,
            It.harmless_inside, It.harmless_inside]
HARMFUL = [It.without_one, It.without_one, It.with_one_twice, It.with_another_first, It.with_another_length,
           It.with_another_length, It.with_another_value, It.with_another_value, It.with_odd_avp, It.with_any_known,
           It.with_one_nested, It.with_one_often,
           *[It.harmful_inside] * 8]
ODD_HEADERS = [It.as_answer, It.of_other_command, It.of_other_application, It.not_proxiable, It.with_odd_flags,
               It.with_bits_flipped, It.with_bits_flipped]
ODD_BODIES = [It.cut_off, It.with_zeros, It.of_any_octets, It.with_another_octet, It.with_another_octet,
              It.with_odd_padding, It.with_odd_padding, *[It.with_another_avp_length] * 3]
