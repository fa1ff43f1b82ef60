"""Credit-Control (RFC 8506) as a front sees it: what a request asks for or is refused for, and its answer.

Which AVPs must be there, may be there once and may have the flag M, and in which order faults are looked for, is this
farm's own choice.
"""
from dataclasses import dataclass

from diameter import (APPLICATION_UNSUPPORTED, COMMAND_UNSUPPORTED, DESTINATION_REALM, FAILED_LIMIT, INVALID_AVP_LENGTH,
                      MANDATORY, ORIGIN_HOST, ORIGIN_REALM, RESULT_CODE, SESSION_ID, Avp, NoList, carried,
                      carries_too_much, first, group, number, octets_of_kind, origin, split)
from site_data import APPLICATION_IN_GROUP, CREDIT_CONTROL_APPLICATION, ORIGIN_TWICE

CREDIT_CONTROL = 272
AUTH_APPLICATION_ID, SERVICE_CONTEXT_ID, CC_REQUEST_NUMBER, CC_REQUEST_TYPE = 258, 461, 415, 416
CC_SESSION_FAILOVER, REQUESTED_ACTION, CHECK_BALANCE_RESULT, VALIDITY_TIME = 418, 436, 422, 448
SUBSCRIPTION_ID, SUBSCRIPTION_ID_DATA, SUBSCRIPTION_ID_TYPE = 443, 444, 450
MULTIPLE_SERVICES, RATING_GROUP, SERVICE_IDENTIFIER = 456, 432, 439
REQUESTED_UNITS, USED_UNITS, GRANTED_UNITS = 437, 446, 431
CC_TIME, CC_TOTAL_OCTETS, CC_SERVICE_SPECIFIC_UNITS = COUNTS = 420, 421, 417
FINAL_UNIT_INDICATION, FINAL_UNIT_ACTION = 430, 449
COST_INFORMATION, UNIT_VALUE, VALUE_DIGITS, EXPONENT, CURRENCY_CODE = 423, 445, 447, 429, 425

INITIAL, UPDATE, TERMINATION, EVENT = 1, 2, 3, 4
DIRECT_DEBITING, REFUND_ACCOUNT, CHECK_BALANCE, PRICE_ENQUIRY = 0, 1, 2, 3
SUCCESS, CREDIT_LIMIT_REACHED, USER_UNKNOWN, RATING_FAILED = 2001, 4012, 5030, 5031
AVP_UNSUPPORTED, UNKNOWN_SESSION_ID, INVALID_AVP_VALUE, MISSING_AVP = 5001, 5002, 5004, 5005
OCCURS_TOO_MANY_TIMES, UNABLE_TO_COMPLY = 5009, 5012

SERVICES_LIMIT, USED_LIMIT = 32, 2**78
# Codes of no vendor up to this one are known.
LAST_KNOWN_CODE = 461
VENDOR_SPECIFIC_APPLICATION_ID = 260

# What a command has at most once, and what it must have, in the order in which a missing one is told.
COMMAND_ONCE = (SESSION_ID, ORIGIN_HOST, ORIGIN_REALM, DESTINATION_REALM, AUTH_APPLICATION_ID, SERVICE_CONTEXT_ID,
                CC_REQUEST_TYPE, CC_REQUEST_NUMBER, REQUESTED_ACTION, REQUESTED_UNITS, SERVICE_IDENTIFIER)
COMMAND_NEEDED = COMMAND_ONCE[1:8]
# Whose values are looked at: of the command, and in its groups.
COMMAND_VALUES = (SESSION_ID, CC_REQUEST_TYPE, CC_REQUEST_NUMBER, REQUESTED_ACTION, SERVICE_IDENTIFIER)
GROUP_VALUES = (SUBSCRIPTION_ID_DATA, SUBSCRIPTION_ID_TYPE, RATING_GROUP, SERVICE_IDENTIFIER) + COUNTS
TEXTS = (SESSION_ID, SUBSCRIPTION_ID_DATA)
RANGES = {CC_REQUEST_TYPE: range(1, 5), REQUESTED_ACTION: range(4)}
# What groups have at most once, and what they must have.
GROUP_ONCE = {SUBSCRIPTION_ID: (SUBSCRIPTION_ID_DATA, SUBSCRIPTION_ID_TYPE), REQUESTED_UNITS: COUNTS,
              USED_UNITS: COUNTS, MULTIPLE_SERVICES: (REQUESTED_UNITS, RATING_GROUP)}
GROUP_NEEDED = {SUBSCRIPTION_ID: (SUBSCRIPTION_ID_TYPE, SUBSCRIPTION_ID_DATA)}


class Refused(Exception):
    """What a request is refused for: the code, and the AVP at fault where one is told."""

    def __init__(self, code, failed=None):
        super().__init__(code)
        self.code, self.failed = code, failed


def refused_for(code, avp):
    """A refusal that shows the AVP at fault, in its least form where it is large."""
    return Refused(code, avp if len(avp.octets()) <= FAILED_LIMIT else avp.least())


@dataclass(frozen=True)
class Service:
    """`asked` is None where no units are asked, and else has the counts that are there; `used` has sums of counts."""

    group: int | None
    identifier: int | None
    asked: dict | None
    used: dict
    bare: bool = False

    @property
    def name(self):
        return self.group, self.identifier


@dataclass(frozen=True)
class Request:
    """What a Credit-Control-Request asks for. `subscribers` has types and texts."""

    session: str
    number: int
    kind: int
    action: int | None
    subscribers: list
    services: list


def request_under(message, profile):
    """What a front reads in a message under a profile. Raises Refused."""
    if message.application != CREDIT_CONTROL_APPLICATION:
        raise Refused(APPLICATION_UNSUPPORTED)
    if message.command != CREDIT_CONTROL:
        raise Refused(COMMAND_UNSUPPORTED)
    avps = parts(message.body)
    if carries_too_much(avps):
        raise Refused(UNABLE_TO_COMPLY)
    check_command(avps, profile)
    for avp in avps:
        if avp.has_code(*GROUP_ONCE):
            check_group(avp, profile)
    services = services_of(avps)
    if len(services) > SERVICES_LIMIT or len({service.name for service in services}) < len(services):
        raise Refused(UNABLE_TO_COMPLY)
    if any(count >= USED_LIMIT for service in services for count in service.used.values()):
        raise Refused(UNABLE_TO_COMPLY)
    return Request(first(avps, SESSION_ID).value.decode(), integer(avps, CC_REQUEST_NUMBER),
                   integer(avps, CC_REQUEST_TYPE), integer(avps, REQUESTED_ACTION), subscribers_of(avps), services)


def parts(octets):
    """The AVPs of a body or a group."""
    try:
        return split(octets)
    except NoList as fault:
        raise Refused(INVALID_AVP_LENGTH, fault.failed) from None


def check_command(avps, profile):
    if first(avps, SESSION_ID) is None:
        raise Refused(MISSING_AVP, Avp(SESSION_ID, b""))
    if not avps[0].has_code(SESSION_ID):
        raise Refused(UNABLE_TO_COMPLY)
    check_known(avps, profile)
    counted = without_repeats(avps, profile) + applications_of_groups(avps, profile)
    check_once(counted, COMMAND_ONCE)
    check_there(counted, COMMAND_NEEDED)
    kind = first(avps, CC_REQUEST_TYPE).value
    if len(kind) == 4 and int.from_bytes(kind) == EVENT:
        check_there(avps, [REQUESTED_ACTION])
    check_values(avps, COMMAND_VALUES)


def without_repeats(avps, profile):
    """The AVPs without those that say again who sends, where that is tolerated."""
    if ORIGIN_TWICE not in profile.tolerated:
        return avps
    said = set()
    kept = []
    for avp in avps:
        if avp.has_code(ORIGIN_HOST, ORIGIN_REALM):
            if (avp.code, avp.value) in said:
                continue
            said.add((avp.code, avp.value))
        kept.append(avp)
    return kept


def applications_of_groups(avps, profile):
    """Auth-Application-Ids in groups that count as the command's own, where that is tolerated: the first of
    Credit-Control where the command has none, else each that says another one than the command."""
    if APPLICATION_IN_GROUP not in profile.tolerated:
        return []
    inner = [one for avp in avps for one in applications_inside(avp)]
    said = {avp.value for avp in avps if avp.has_code(AUTH_APPLICATION_ID)}
    if said:
        return [one for one in inner if one.value not in said]
    return [one for one in inner if one.value == CREDIT_CONTROL_APPLICATION.to_bytes(4)][:1]


def applications_inside(avp):
    """The Auth-Application-Ids of a Vendor-Specific-Application-Id; a group that is no list has none."""
    if not avp.has_code(VENDOR_SPECIFIC_APPLICATION_ID):
        return []
    try:
        return [one for one in split(avp.value) if one.has_code(AUTH_APPLICATION_ID)]
    except NoList:
        return []


def check_group(avp, profile):
    """A group of the command, or one inside Multiple-Services-Credit-Control."""
    inner = parts(avp.value)
    check_known(inner, profile)
    check_once(inner, GROUP_ONCE[avp.code])
    check_there(inner, GROUP_NEEDED.get(avp.code, ()))
    check_values(inner, GROUP_VALUES)
    if avp.code == MULTIPLE_SERVICES:
        for units in inner:
            if units.has_code(REQUESTED_UNITS, USED_UNITS):
                check_group(units, profile)


def check_known(avps, profile):
    for avp in avps:
        standard = 1 <= avp.code <= LAST_KNOWN_CODE or avp.code in profile.known
        known = avp.vendor == 0 and standard or avp.vendor in profile.vendors
        if avp.flags & MANDATORY and not known:
            raise refused_for(AVP_UNSUPPORTED, avp)


def check_once(avps, codes):
    found = set()
    for avp in avps:
        if avp.has_code(*codes):
            if avp.code in found:
                raise refused_for(OCCURS_TOO_MANY_TIMES, avp)
            found.add(avp.code)


def check_there(avps, codes):
    for code in codes:
        if first(avps, code) is None:
            raise Refused(MISSING_AVP, Avp(code, b"").least())


def check_values(avps, codes):
    for avp in avps:
        if avp.has_code(*codes):
            check_value(avp)


def check_value(avp):
    if avp.code in TEXTS:
        try:
            avp.value.decode()
        except UnicodeDecodeError:
            raise refused_for(INVALID_AVP_VALUE, avp) from None
        return
    if len(avp.value) != octets_of_kind(avp.code, 0):
        raise Refused(INVALID_AVP_LENGTH, avp.least())
    if avp.code in RANGES and int.from_bytes(avp.value) not in RANGES[avp.code]:
        raise refused_for(INVALID_AVP_VALUE, avp)


def integer(avps, code):
    """The number in the first AVP of this code, or None."""
    avp = first(avps, code)
    return None if avp is None else int.from_bytes(avp.value)


def subscribers_of(avps):
    groups = [split(avp.value) for avp in avps if avp.has_code(SUBSCRIPTION_ID)]
    return [(integer(inner, SUBSCRIPTION_ID_TYPE), first(inner, SUBSCRIPTION_ID_DATA).value.decode())
            for inner in groups]


def services_of(avps):
    """The services; those of the command itself do not count where there are others."""
    named = [service_of(split(avp.value)) for avp in avps if avp.has_code(MULTIPLE_SERVICES)]
    if named:
        return named
    bare = any(avp.has_code(REQUESTED_UNITS, USED_UNITS, SERVICE_IDENTIFIER) for avp in avps)
    return [service_of(avps, bare=True)] if bare else []


def service_of(avps, bare=False):
    asked = first(avps, REQUESTED_UNITS)
    used = [counts_of(avp) for avp in avps if avp.has_code(USED_UNITS)]
    sums = {unit: sum(counts.get(unit, 0) for counts in used) for unit in COUNTS}
    rating_group = None if bare else integer(avps, RATING_GROUP)
    return Service(rating_group, integer(avps, SERVICE_IDENTIFIER), asked and counts_of(asked), sums, bare)


def counts_of(units):
    """The counts in Requested- or Used-Service-Unit, by their codes."""
    return {avp.code: int.from_bytes(avp.value) for avp in split(units.value) if avp.has_code(*COUNTS)}


@dataclass(frozen=True)
class ServiceReply:
    """`unit` is the code that counts what is granted; `validity` is there with the grant of a session."""

    group: int | None
    identifier: int | None
    bare: bool
    code: int
    unit: int | None = None
    granted: int | None = None
    validity: int | None = None
    last: bool = False

    def granted_units(self):
        if self.granted is None:
            return []
        count = min(self.granted, 2**32 - 1) if self.unit == CC_TIME else self.granted
        return [group(GRANTED_UNITS, [number(self.unit, count, octets_of_kind(self.unit, 0))])]

    def final_unit(self):
        return [group(FINAL_UNIT_INDICATION, [number(FINAL_UNIT_ACTION, 0)])] if self.last else []

    def validity_time(self):
        return optional(VALIDITY_TIME, self.validity)

    def avp(self):
        names = optional(SERVICE_IDENTIFIER, self.identifier) + optional(RATING_GROUP, self.group)
        avps = self.granted_units() + names + self.validity_time() + [number(RESULT_CODE, self.code)]
        return group(MULTIPLE_SERVICES, avps + self.final_unit())


@dataclass(frozen=True)
class Reply:
    """What the book says to a request. `cost` is in minor units; `check` is a Check-Balance-Result."""

    code: int
    services: tuple = ()
    cost: int | None = None
    check: int | None = None


def optional(code, value):
    return [] if value is None else [number(code, value)]


def cost_information(reply, site):
    if reply.cost is None:
        return []
    exponent = Avp(EXPONENT, site.exponent.to_bytes(4, signed=True))
    value = group(UNIT_VALUE, [number(VALUE_DIGITS, reply.cost, 8), exponent])
    return [group(COST_INFORMATION, [value, number(CURRENCY_CODE, site.currency)])]


def credit_control_answer(front, site, message, request, reply):
    """A front's answer to a request that it took."""
    session, proxies = carried(message)
    bare = next((service for service in reply.services if service.bare), None)
    avps = session + [number(RESULT_CODE, reply.code)] + origin(front, site.realm)
    avps += [number(AUTH_APPLICATION_ID, CREDIT_CONTROL_APPLICATION)]
    avps += [number(CC_REQUEST_TYPE, request.kind), number(CC_REQUEST_NUMBER, request.number)]
    avps += [number(CC_SESSION_FAILOVER, 1)] if request.kind == INITIAL and reply.code == SUCCESS else []
    avps += bare.granted_units() if bare else []
    avps += [service.avp() for service in reply.services if not service.bare]
    avps += cost_information(reply, site)
    avps += bare.final_unit() if bare else []
    avps += optional(CHECK_BALANCE_RESULT, reply.check)
    avps += bare.validity_time() if bare else []
    return message.answer(avps + proxies)
