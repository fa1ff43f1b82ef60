"""Schedules of connections of which the two nodes learn apart, each with what it shows. `ENDS` has those that are stored."""
from messages import DEBIT, again
from row_site import C1, F1, F2, R1, R2
from scenarios import Script
from site_stories import R3


def relayed(comment):
    """c1's debit has come to r1, which has sent it to f1; r1 is connected with f2 too, and drops f1."""
    return Script(comment).up((C1, R1), (R1, F1), (R1, F2)).send(C1, R1, message=DEBIT).step("drop", R1, F1)


def by_the_other_front(script, moment):
    return script.carry(R1, F2).answer(F2, moment).carry(F2, R1, C1)


def old_front_reads_on():
    script = relayed("""r1 has sent a debit to f1, and learns that its connection with f1 has ended; f1 does not know that yet.
        r1 sends the debit to f2, which charges it, and c1 gets the answer. Then f1 reads what was sent to it before,
        charges nothing, as the book has the request already, and answers into nothing: there is nothing to deliver to r1.""")
    by_the_other_front(script, 1000).carry(R1, F1).answer(F1, 2000)
    return script.step("deliver", F1, R1, 0)


def old_front_charges_first():
    script = relayed("""r1 has sent a debit to f1, and learns that its connection with f1 has ended; f1 does not know that yet,
        reads the debit and charges it, and its answer goes into nothing. r1 has sent the debit to f2 too, which gives
        the kept answer: one charge.""")
    return by_the_other_front(script.carry(R1, F1).answer(F1, 1000), 2000)


def faster_way():
    script = Script("""r1 has sent a debit to r2, and learns that its connection with r2 has ended; r2 does not know that yet.
        r1 sends the debit by r3, which sends it to r2 too, and r2 reads that one before the old one. Both go to f2,
        which charges once; c1 gets one answer, by r3, and the other goes into nothing.""")
    script.up((C1, R1), (R1, R2), (R1, R3), (R2, R3), (R2, F2)).send(C1, R1, message=DEBIT)
    script.step("drop", R1, R2).carry(R1, R3, R2, F2).carry(R1, R2, F2).answer(F2, 1000).answer(F2, 2000)
    return script.carry(F2, R2).carry(F2, R2).carry(R2, R3, R1, C1).step("deliver", R2, R1, 0)


def crashed_relay():
    script = Script("""r1 crashes with a request pending, and its peers do not know that yet: f1 charges and answers into nothing,
        and no new connection of c1 and r1 comes up before c1 has dropped the old one. c1 sends the request again on a
        new connection: one charge, and the answer comes on the new connection.""")
    script.up((C1, R1), (R1, F1)).send(C1, R1, F1, message=DEBIT).step("crash", R1).answer(F1, 1000)
    script.step("deliver", F1, R1, 0).step("up", C1, R1).step("drop", C1, R1).step("drop", F1, R1)
    return script.up((C1, R1), (R1, F1)).send(C1, R1, F1, message=again(DEBIT, 8)).answer(F1, 2000).carry(F1, R1, C1)


def one_end_alone():
    script = Script("""r1 accepts a connection and drops it before c1 has learned that it is made. c1 sends into nothing until it
        has dropped the connection too, and only then a new one is made.""")
    script.step("accept", R1, C1).step("drop", R1, C1).step("accept", R1, C1)
    script.step("opened", C1, R1).step("send", C1, R1, DEBIT).step("deliver", C1, R1, 0)
    script.step("accept", R1, C1).step("drop", C1, R1).step("drop", C1, R1)
    script.step("accept", R1, C1).step("opened", C1, R1).up((R1, F1))
    return script.send(C1, R1, F1, message=DEBIT).answer(F1, 1000).carry(F1, R1, C1)


def given_up():
    script = Script("""c1 gives up a connection that r1 has accepted, before it has learned that it is made: it sends nothing on it,
        and r1, which learns nothing of that, has to drop it too before a new one is made.""")
    script.step("accept", R1, C1).step("send", C1, R1, DEBIT).step("drop", C1, R1)
    script.step("opened", C1, R1).step("drop", C1, R1).step("accept", R1, C1)
    return script.step("drop", R1, C1).step("accept", R1, C1)


def crashed_unnoticed():
    script = Script("""f1 crashes, and r1 does not know that yet: no connection of the two is made, whichever of them opens it,
        before r1 has dropped the old one.""")
    script.up((R1, F1)).step("crash", F1).step("accept", F1, R1).step("accept", R1, F1).step("up", R1, F1)
    return script.step("drop", R1, F1).step("accept", F1, R1)


def cut_where_one_knows():
    script = Script("""A cut ends a connection that one of its two nodes knows, though the other has not learned of it yet, and none
        that nobody knows.""")
    script.step("accept", R1, C1).step("cut", C1, R1).step("accept", R1, C1)
    return script.step("drop", R1, C1).step("cut", C1, R1)


# Those over the row site, and those over the site of the ring.
ENDS = {"ends/old-front-reads-on": old_front_reads_on, "ends/old-front-charges-first": old_front_charges_first,
        "ends/crashed-relay": crashed_relay, "ends/one-end-alone": one_end_alone, "ends/given-up": given_up,
        "ends/crashed-unnoticed": crashed_unnoticed, "ends/cut-where-one-knows": cut_where_one_knows}
ENDS_OF_THE_RING = {"faster-way": faster_way}
