"""Requests for schedules: a debit and the opening of a session, and what is changed in them."""
from dataclasses import replace

from credit_control import (AUTH_APPLICATION_ID, CC_REQUEST_NUMBER, CC_REQUEST_TYPE, CC_TOTAL_OCTETS, CREDIT_CONTROL,
                            DIRECT_DEBITING, EVENT, INITIAL, MULTIPLE_SERVICES, RATING_GROUP, REQUESTED_ACTION,
                            REQUESTED_UNITS, SERVICE_CONTEXT_ID, SUBSCRIPTION_ID, SUBSCRIPTION_ID_DATA,
                            SUBSCRIPTION_ID_TYPE, TERMINATION, UPDATE)
from diameter import (DESTINATION_HOST, DESTINATION_REALM, ORIGIN_HOST, ORIGIN_REALM, PROXIABLE, PROXY_HOST, PROXY_INFO,
                      PROXY_STATE, REQUEST, RETRANSMITTED, SESSION_ID, Message, group, number, spelled, split, text)
from site_data import CREDIT_CONTROL_APPLICATION


def subscription(digits):
    return group(SUBSCRIPTION_ID, [number(SUBSCRIPTION_ID_TYPE, 0), text(SUBSCRIPTION_ID_DATA, digits)])


def units(code, octets=None):
    """Requested- or Used-Service-Unit, empty or with a count of octets."""
    return group(code, [] if octets is None else [number(CC_TOTAL_OCTETS, octets, 8)])


def service(*inner):
    """Multiple-Services-Credit-Control for the Rating-Group that has a tariff."""
    return group(MULTIPLE_SERVICES, [*inner, number(RATING_GROUP, 10)])


def request(kind, place, services, action=None):
    """A request of session c1;1;1 by the first subscriber, the number `place` of its session."""
    avps = [text(SESSION_ID, "c1;1;1"), text(ORIGIN_HOST, "c1.example"), text(ORIGIN_REALM, "example"),
            text(DESTINATION_REALM, "ocs.example"), number(AUTH_APPLICATION_ID, CREDIT_CONTROL_APPLICATION),
            text(SERVICE_CONTEXT_ID, "32251@3gpp.org"), number(CC_REQUEST_TYPE, kind), number(CC_REQUEST_NUMBER, place)]
    avps += [] if action is None else [number(REQUESTED_ACTION, action)]
    avps += [subscription("491700000001"), *services]
    return Message(REQUEST | PROXIABLE, CREDIT_CONTROL, CREDIT_CONTROL_APPLICATION, 7, 100, spelled(avps))


def event(action, octets):
    return request(EVENT, 0, [service(units(REQUESTED_UNITS, octets))], action)


def with_avps(message, avps):
    return replace(message, body=spelled(avps))


def without(message, code):
    """The message without its AVPs of this code."""
    return with_avps(message, [avp for avp in split(message.body) if not avp.has_code(code)])


def changed(message, new):
    """The message with another AVP in the place of the one of that code."""
    return with_avps(message, [new if avp.has_code(new.code) else avp for avp in split(message.body)])


def appended(message, *avps):
    return replace(message, body=message.body + spelled(avps))


def of_session(message, session):
    return changed(message, text(SESSION_ID, session))


def of_subscriber(message, digits):
    return changed(message, subscription(digits))


def to_realm(message, realm):
    return changed(message, text(DESTINATION_REALM, realm))


def to_host(message, host):
    """The message with a Destination-Host behind Destination-Realm, or at the end where there is none."""
    avps = split(message.body)
    at = next((at for at, avp in enumerate(avps, 1) if avp.has_code(DESTINATION_REALM)), len(avps))
    return with_avps(message, avps[:at] + [text(DESTINATION_HOST, host)] + avps[at:])


def again(message, hop):
    """The message as a client sends it again: the flag T, and another Hop-by-Hop Identifier."""
    return replace(message, flags=message.flags | RETRANSMITTED, hop=hop)


DEBIT = event(DIRECT_DEBITING, 3200)
# Event-Timestamp.
TIMESTAMP = number(55, 0xE000_0000)
PROXY = group(PROXY_INFO, [text(PROXY_HOST, "p.example"), text(PROXY_STATE, "state")])
OPENING = request(INITIAL, 0, [service(units(REQUESTED_UNITS))])


def update(place, *inner):
    return request(UPDATE, place, [service(*inner)])


def termination(place, *inner):
    return request(TERMINATION, place, [service(*inner)])
