"""Schedules of a client that deviates from the rules as one of the field does, and of one that would say two things
under what is tolerated there: over the site sites/field.toml, and over the row site, which takes none of it."""
from dataclasses import replace

from credit_control import (AUTH_APPLICATION_ID, MULTIPLE_SERVICES, REQUESTED_UNITS, SERVICE_CONTEXT_ID, USED_UNITS,
                            VENDOR_SPECIFIC_APPLICATION_ID)
from diameter import (DESTINATION_REALM, MANDATORY, ORIGIN_HOST, ORIGIN_REALM, SESSION_ID, VENDOR, Avp, group, number,
                      split, text)
from messages import DEBIT, OPENING, changed, of_session, service, termination, units, update, with_avps, without
from row_site import C1, F1, R1
from scenarios import Script

# Accounting-Record-Type and Accounting-Record-Number, of another application.
RECORD_TYPE, RECORD_NUMBER = 480, 485
VENDOR_ID, VENDOR_3GPP = 266, 10_415
OTHER_APPLICATION, CREDIT_CONTROL_APPLICATION = 5, 4


def behind(message, code, *avps):
    """The message with these AVPs behind its first one of that code."""
    there = split(message.body)
    at = next(at for at, avp in enumerate(there, 1) if avp.has_code(code))
    return with_avps(message, [*there[:at], *avps, *there[at:]])


def with_records(message):
    return behind(message, DESTINATION_REALM, number(RECORD_TYPE, 2), number(RECORD_NUMBER, 0))


def with_origins_again(message, host=C1, realm="example"):
    return behind(message, ORIGIN_REALM, text(ORIGIN_HOST, host), text(ORIGIN_REALM, realm))


def application_of_vendor(application):
    return group(VENDOR_SPECIFIC_APPLICATION_ID,
                 [number(VENDOR_ID, VENDOR_3GPP), number(AUTH_APPLICATION_ID, application)])


def with_application_inside(message, application=CREDIT_CONTROL_APPLICATION):
    """The application in a group alone."""
    return behind(without(message, AUTH_APPLICATION_ID), SERVICE_CONTEXT_ID, application_of_vendor(application))


def as_kamailio_sends(message):
    return with_records(with_origins_again(with_application_inside(message)))


def debit(session):
    return of_session(DEBIT, f"c1;1;{session}")


def deviating():
    """Requests that the site takes: a session, then debits that deviate in one way each, and further."""
    yield as_kamailio_sends(OPENING)
    yield as_kamailio_sends(update(1, units(REQUESTED_UNITS), units(USED_UNITS, 3000)))
    yield as_kamailio_sends(termination(2, units(USED_UNITS, 1500)))
    yield with_records(debit(2))
    yield with_origins_again(debit(3))
    yield with_application_inside(debit(4))
    yield with_origins_again(with_origins_again(debit(5)))
    known_inside = service(units(REQUESTED_UNITS, 3200), number(RECORD_TYPE, 2))
    yield changed(debit(6), known_inside)
    yield behind(debit(7), SERVICE_CONTEXT_ID, application_of_vendor(CREDIT_CONTROL_APPLICATION))


def smuggling():
    """Requests that it refuses, each with what it says twice, or does not say."""
    yield with_origins_again(debit(11), host="C1.example")
    yield with_origins_again(debit(12), realm="other.example")
    yield behind(debit(13), SERVICE_CONTEXT_ID, application_of_vendor(OTHER_APPLICATION))
    other_outside = changed(debit(14), number(AUTH_APPLICATION_ID, OTHER_APPLICATION))
    yield behind(other_outside, SERVICE_CONTEXT_ID, application_of_vendor(CREDIT_CONTROL_APPLICATION))
    yield with_application_inside(debit(15), OTHER_APPLICATION)
    inside = application_of_vendor(CREDIT_CONTROL_APPLICATION)
    broken = replace(inside, value=inside.value[:-4])
    yield behind(without(debit(16), AUTH_APPLICATION_ID), SERVICE_CONTEXT_ID, broken)
    yield behind(debit(17), SERVICE_CONTEXT_ID, number(AUTH_APPLICATION_ID, CREDIT_CONTROL_APPLICATION))
    yield behind(debit(18), SESSION_ID, text(SESSION_ID, "c1;1;18"))
    yield behind(debit(19), DESTINATION_REALM, number(481, 2))
    yield behind(debit(20), DESTINATION_REALM, Avp(RECORD_TYPE, bytes(4), VENDOR | MANDATORY, 9))


def played(script, messages):
    """Each message by r1 to f1, charged and answered there."""
    script.up((C1, R1), (R1, F1))
    for place, message in enumerate(messages):
        message = replace(message, hop=7 + place, end=100 + place)
        script.send(C1, R1, F1, message=message).answer(F1, 1000 * (place + 1)).carry(F1, R1, C1)
    return script


def charged():
    return played(Script("""A client sends what Kamailio's ims_charging sends: Accounting-Record-Type and -Number, 480
        and 485, with M; Origin-Host and Origin-Realm twice; the application inside Vendor-Specific-Application-Id
        alone. The site takes that: a session is granted 5000 octets twice, uses 3000 and 1500, and pays 25. Then six
        debits of 20 each: one for each deviation alone, one with three Origin-Hosts, one with 480 inside its service,
        and one with the application inside and outside."""), deviating())


def smuggled():
    return played(Script("""Nothing of this is charged. Refused as standing twice, 5009: an Origin-Host in other letters
        and an Origin-Realm of another name, an application inside that is another one than outside, in both ways, and a
        second Auth-Application-Id or Session-Id with the same octets. As missing, 5005: an application where 5 stands
        inside alone, or 4 inside a group that is cut off. As not known, 5001: 481, and 480 of a vendor."""),
                  smuggling())


def as_by_the_rules():
    return played(Script("""The requests of sites/field/charged and sites/field/smuggled over the row site, which knows
        and tolerates nothing more than the rules have. Each is refused, but for three that say an application outside:
        what stands inside is not looked at there."""), [*deviating(), *smuggling()])


# Each by the folder that it stands in, and its name; and those over the site `field`.
DEVIATIONS = {"refusals/deviations": as_by_the_rules}
DEVIATIONS_OF_THE_FIELD = {"charged": charged, "smuggled": smuggled}
