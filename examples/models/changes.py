"""Schedules in which the terms change: what is worked out by hand stands in the comment of each. Over the row site, where the
Rating-Group 10 costs 5 for each 1000 octets, and the account 491700000001 opens with 1000."""
from dataclasses import replace

from credit_control import CC_TOTAL_OCTETS, REQUESTED_UNITS, USED_UNITS
from messages import DEBIT, OPENING, again, of_session, of_subscriber, termination, units, update
from row_site import C1, F1
from scenarios import Script
from site_data import Tariff
from terms import Change

DEARER = 10, None, Tariff(CC_TOTAL_OCTETS, block=1000, price=7, quantum=5000, greatest=10_000)
JOINER = (0, "491700000006"), 100
# The account of the row site that opens with 1000.
FIRST = 0, "491700000001"


def asked(script, message, moment):
    """A request of c1 to f1 that is charged at this moment, and its answer."""
    return script.send(C1, F1, message=message).answer(F1, moment).carry(F1, C1)


def dearer_behind_the_grant():
    script = Script("""A session is granted 5000 octets at 5 for a block of 1000, and 25 are reserved. Then a block costs 7. The
        UPDATE reports 4000 used octets, which were granted at 5: four blocks, 20, which leaves 980. It is granted 5000 more, at 7,
        and 35 are reserved. The TERMINATION reports 2500, which were granted at 7: three blocks, 21, which leaves 959.""")
    asked(script.up((C1, F1)), OPENING, 1000).step("terms", 2000, Change(tariffs=(DEARER,)))
    asked(script, update(1, units(REQUESTED_UNITS), units(USED_UNITS, 4000)), 3000)
    return asked(script, termination(2, units(USED_UNITS, 2500)), 4000)


def joined_between():
    script = Script("""A debit names an account that is not there, and is answered USER_UNKNOWN. The account joins with 100. The
        same debit, sent again, is answered as before, USER_UNKNOWN. A debit with another Session-Id is granted: 3200 octets are
        four blocks, 20, which leaves 80. The book has three entries: the first debit, the change, and the last debit.""")
    debit = of_subscriber(DEBIT, JOINER[0][1])
    asked(script.up((C1, F1)), debit, 1000).step("terms", 2000, Change(joining=(JOINER,)))
    asked(script, again(debit, 8), 3000)
    return asked(script, replace(of_session(debit, "c1;1;2"), hop=9), 4000)


def repeated_behind_a_change():
    script = Script("""A debit of 3200 octets pays 20, and 980 are left. Then a block costs 7. The same debit, sent again with the
        flag T, is answered as then, and charges nothing. A debit of 3200 octets with another Session-Id pays four blocks of 7, 28,
        which leaves 952.""")
    asked(script.up((C1, F1)), DEBIT, 1000).step("terms", 2000, Change(tariffs=(DEARER,)))
    asked(script, again(DEBIT, 8), 3000)
    return asked(script, replace(of_session(DEBIT, "c1;1;2"), hop=9), 4000)


def refused_as_a_whole():
    script = Script("""A change has an account that joins twice, and another tariff. The book refuses it, and nothing of it holds,
        though the step applies: a debit of that account is answered USER_UNKNOWN, and one of 3200 octets pays 20, four blocks of 5,
        which leaves 980. So is a change refused that has an account which is there, and one that says nothing. There are two
        entries, both of requests.""")
    script.up((C1, F1)).step("terms", 1000, Change((JOINER, JOINER), (DEARER,)))
    script.step("terms", 1000, Change((JOINER, ((0, "491700000001"), 5)), (DEARER,))).step("terms", 1000, Change())
    asked(script, of_subscriber(DEBIT, JOINER[0][1]), 2000)
    return asked(script, replace(of_session(DEBIT, "c1;1;2"), hop=8), 3000)


def closed_with_a_session_open():
    script = Script("""A session is granted 5000 octets at 5 for a block of 1000, and 25 are reserved of 1000. Then its account closes. The
        UPDATE reports 4000 used octets: four blocks, 20, which leaves 980; what it asks is answered CREDIT_LIMIT_REACHED, and nothing
        is reserved. A debit with another Session-Id finds no account, and is answered USER_UNKNOWN. The INITIAL, sent again, is
        answered as then. The TERMINATION reports 1000 used octets, 5, which leaves 975. The account opens again, and a debit of 3200
        octets pays four blocks, 20, which leaves 955.""")
    asked(script.up((C1, F1)), OPENING, 1000).step("terms", 2000, Change(closing=(FIRST,)))
    asked(script, update(1, units(REQUESTED_UNITS), units(USED_UNITS, 4000)), 3000)
    asked(script, replace(of_session(DEBIT, "c1;1;2"), hop=9), 4000)
    asked(script, again(OPENING, 10), 5000)
    asked(script, termination(2, units(USED_UNITS, 1000)), 6000).step("terms", 7000, Change(reopening=(FIRST,)))
    return asked(script, replace(of_session(DEBIT, "c1;1;3"), hop=12), 8000)


def closing_refused():
    script = Script("""The book refuses to close an account that is not there, one that is closed, and one twice; and to open one again
        that is not closed. Each time nothing of the change holds. There are two entries: the change that closes the first account, and
        a debit, which is answered USER_UNKNOWN.""")
    script.up((C1, F1)).step("terms", 1000, Change(closing=(JOINER[0],))).step("terms", 1000, Change(reopening=(FIRST,)))
    script.step("terms", 1000, Change(closing=(FIRST, FIRST))).step("terms", 1000, Change(closing=(FIRST,)))
    script.step("terms", 1000, Change(joining=(JOINER,), closing=(FIRST,)))
    script.step("terms", 1000, Change(reopening=(FIRST, FIRST)))
    return asked(script, DEBIT, 2000)


# Each by the folder that it stands in, and its name.
CHANGES = {
    "terms/closed-with-a-session-open": closed_with_a_session_open,
    "terms/closing-refused": closing_refused,
    "terms/dearer-behind-the-grant": dearer_behind_the_grant,
    "terms/joined-between": joined_between,
    "terms/repeated-behind-a-change": repeated_behind_a_change,
    "terms/refused-as-a-whole": refused_as_a_whole,
}
