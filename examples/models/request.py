#!/usr/bin/env python3
"""Prints a Credit-Control-Request in hexadecimal, as `send` of a schedule takes it, for a site of one's own.

    request.py WHAT CLIENT REALM TYPE ID --session NUMBER [--group NUMBER | --ident NUMBER] ..

WHAT is initial, update or termination for a session, debit, refund, balance or price for an event. CLIENT is the node
that sends it, REALM that of the site, TYPE and ID name the account. A service is named by the `group` or the `ident` of
its tariff, whose kind is the unit; `--asked` and `--used` count such units. So 3200 octets of service 10 are debited:

    request.py debit gw.example ocs.example 0 491700000001 --session 1 --group 10 --asked 3200

What is sent again under one session and number is charged once: each event needs a session of its own, and the requests
of a session the numbers 0, 1, 2 and so on.
"""
import argparse
import sys
from dataclasses import replace

from credit_control import (CC_SERVICE_SPECIFIC_UNITS, CC_TIME, CC_TOTAL_OCTETS, CHECK_BALANCE, DIRECT_DEBITING, EVENT,
                            INITIAL, MULTIPLE_SERVICES, PRICE_ENQUIRY, RATING_GROUP, REFUND_ACCOUNT, REQUESTED_UNITS,
                            SERVICE_IDENTIFIER, TERMINATION, UPDATE, USED_UNITS)
from diameter import RETRANSMITTED, group, number
from site_stories import Gateway, counted

# The type of a request, and what an event asks for.
WHAT = {"initial": (INITIAL, None), "update": (UPDATE, None), "termination": (TERMINATION, None),
        "debit": (EVENT, DIRECT_DEBITING), "refund": (EVENT, REFUND_ACCOUNT), "balance": (EVENT, CHECK_BALANCE),
        "price": (EVENT, PRICE_ENQUIRY)}
UNITS = {"octets": CC_TOTAL_OCTETS, "time": CC_TIME, "units": CC_SERVICE_SPECIFIC_UNITS}


def words_of_command_line():
    parser = argparse.ArgumentParser(description=__doc__, formatter_class=argparse.RawDescriptionHelpFormatter)
    parser.add_argument("what", choices=WHAT)
    parser.add_argument("client", help="the node that sends the request")
    parser.add_argument("realm", help="the realm of the site")
    parser.add_argument("type", type=int, help="the account's type, 0 to 4")
    parser.add_argument("id", help="the account's id")
    parser.add_argument("--session", type=int, required=True, metavar="NUMBER", help="another one for each event")
    parser.add_argument("--number", type=int, default=0, metavar="NUMBER", help="of the request in its session (0)")
    service = parser.add_mutually_exclusive_group()
    service.add_argument("--group", type=int, metavar="NUMBER", help="the service, by the group of its tariff")
    service.add_argument("--ident", type=int, metavar="NUMBER", help="the service, by the identifier of its tariff")
    parser.add_argument("--unit", choices=UNITS, default="octets", help="the kind of its tariff (octets)")
    parser.add_argument("--asked", type=int, metavar="COUNT", help="of units; without it the tariff's quantum is meant")
    parser.add_argument("--used", type=int, metavar="COUNT", help="of units since the last request of the session")
    parser.add_argument("--again", action="store_true", help="with the flag T: it may have been sent before")
    return parser.parse_args()


def services_of(words):
    """The one service that is named, or none. Units are asked for unless the request ends its session."""
    if words.group is None and words.ident is None:
        return []
    unit = UNITS[words.unit]
    asked = [] if words.what == "termination" and words.asked is None else [counted(REQUESTED_UNITS, unit, words.asked)]
    used = [] if words.used is None else [counted(USED_UNITS, unit, words.used)]
    name = number(SERVICE_IDENTIFIER, words.ident) if words.group is None else number(RATING_GROUP, words.group)
    return [group(MULTIPLE_SERVICES, [*asked, *used, name])]


def main():
    words = words_of_command_line()
    kind, action = WHAT[words.what]
    # No front looks at a client's realm, nor at the Service-Context-Id.
    gateway = Gateway(words.client, words.realm, words.realm, "32251@3gpp.org")
    request = gateway.ask(words.session, (words.type, words.id), kind, words.number, *services_of(words), action=action)
    if words.again:
        request = replace(request, flags=request.flags | RETRANSMITTED)
    print(request.octets().hex())
    return 0


if __name__ == "__main__":
    sys.exit(main())
