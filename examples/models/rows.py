"""Worked examples with octets and figures that are told beforehand, played in the model.

Each function is one example: it yields what the model gives and what has to be, pair by pair.
"""
from dataclasses import replace

from credit_control import (CC_REQUEST_NUMBER, CC_REQUEST_TYPE, CHECK_BALANCE, DIRECT_DEBITING, EVENT, INITIAL,
                            MULTIPLE_SERVICES, PRICE_ENQUIRY, REFUND_ACCOUNT, REQUESTED_UNITS, SERVICE_IDENTIFIER,
                            UPDATE, USED_UNITS)
from diameter import DESTINATION_REALM, RESULT_CODE, ROUTE_RECORD, SESSION_ID, Avp, Message, number, split, text
from messages import (DEBIT, OPENING, TIMESTAMP, again, appended, changed, event, of_session, of_subscriber, request,
                      service, subscription, termination, to_host, to_realm, units, update, without)
from row_site import C1, C2, F1, F2, R1, R2, ROW_SITE
from scenarios import (Script, client_gone, failover, failover_while_picked, host_gone, loop, loop_detected,
                       lost_answer, nowhere_to_go, other_content, passed_over, relayed_debit, restarted_relay,
                       session_abandoned, session_kept_up, session_not_due, session_of_the_latest_moment,
                       session_swept_from_under)

DEBIT_OCTETS = (
    "010000f8c0000110000000040000000700000064" "000001074000000e63313b313b310000"
    "000001084000001263312e6578616d706c650000" "000001284000000f6578616d706c6500"
    "0000011b400000136f63732e6578616d706c6500" "000001024000000c00000004" "000001cd4000001633323235314033677070"
    "2e6f72670000" "000001a04000000c00000004" "0000019f4000000c00000000" "000001b44000000c00000000"
    "000001bb40000028000001c24000000c00000000" "000001bc40000014343931373030303030303031"
    "000001c84000002c000001b540000018" "000001a5400000100000000000000c80" "000001b04000000c0000000a")
ANSWER_OCTETS = (
    "010000b440000110000000040000000700000064" "000001074000000e63313b313b310000" "0000010c4000000c000007d1"
    "000001084000001266312e6578616d706c650000" "00000128400000136f63732e6578616d706c6500"
    "000001024000000c00000004" "000001a04000000c00000004" "0000019f4000000c00000000"
    "000001c840000038000001af40000018" "000001a5400000100000000000000c80" "000001b04000000c0000000a"
    "0000010c4000000c000007d1")
LOOP_REFUSAL = ("0100005860000110000000040000000700000064" "000001074000000e63313b313b310000"
                "000001084000001272312e6578616d706c650000" "00000128400000136f63732e6578616d706c6500"
                "0000010c4000000c00000bbd")
BALANCES = [1000, 12, 4, 27, 25]


def answer_with(hop=7, front=b"f1", session=b"c1;1;1"):
    """The answer to the debit, with what is another one in it."""
    octets = bytes.fromhex(ANSWER_OCTETS).replace(b"f1", front).replace(b"c1;1;1", session)
    return (octets[:12] + hop.to_bytes(4) + octets[16:]).hex()


def output(world):
    return [line.removesuffix("\n") for line in world.output()]


def printed(received, end, opened=0, **changes):
    """An output: lines, the end line, the report. `changes` has balances and what is reserved, as b1 and r1."""
    lines = [*received, f"end {end}", f"entries {end.split()[-1]} open {opened}"]
    for place, opening in enumerate(BALANCES, 1):
        balance, reserved = changes.get(f"b{place}", opening), changes.get(f"r{place}", 0)
        lines.append(f"account 0 49170000000{place} balance {balance} reserved {reserved}")
    return lines


def direct(*messages, site=ROW_SITE):
    """The farm after messages that c1 sends to f1, one after the other, each charged and answered."""
    script = Script("").up((C1, F1))
    for message in messages:
        script.send(C1, F1, message=message).answer(F1, 1000).carry(F1, C1)
    return script.played(site)


def answers(world):
    return [message.octets().hex() for _, _, message in world.received]


def account(world, digit):
    """Balance and reserved."""
    key = (0, f"49170000000{digit}")
    return world.book.balances[key], world.book.reserved(key)


def services_in(answer):
    return [avp for avp in split(bytes.fromhex(answer)[20:]) if avp.has_code(MULTIPLE_SERVICES)]


def code_of(avps):
    return next(int.from_bytes(avp.value) for avp in avps if avp.has_code(RESULT_CODE))


def service_codes(answer):
    return [code_of(split(avp.value)) for avp in services_in(answer)]


def result(answer):
    return code_of(split(bytes.fromhex(answer)[20:]))


def octets_are_told():
    yield DEBIT.octets().hex(), DEBIT_OCTETS
    yield OPENING.length, 220
    yield text(ROUTE_RECORD, C1).octets().hex(), "0000011a4000001263312e6578616d706c650000"


def relayed_request():
    world = Script("").up((C1, R1), (R1, F1)).send(C1, R1, message=DEBIT).played()
    relayed, = world.flight(R1, F1)
    yield relayed.length, 268
    yield relayed.octets()[:8].hex(), "0100010cc0000110"
    yield relayed.octets()[20:].hex(), DEBIT_OCTETS[40:] + "0000011a4000001263312e6578616d706c650000"


def first_debit():
    yield output(direct(DEBIT)), printed([f"recv {C1} 1 {ANSWER_OCTETS}"], "steps 7 skipped 0 entries 1", b1=980)


def repeated_debit():
    for flags in (0xD0, 0xC0):
        world = direct(DEBIT, replace(DEBIT, flags=flags, hop=8))
        received = [f"recv {C1} 1 {ANSWER_OCTETS}", f"recv {C1} 1 {answer_with(8)}"]
        yield output(world), printed(received, "steps 13 skipped 0 entries 1", b1=980)


def opened_session():
    world = direct(OPENING)
    yield services_in(answers(world)[0])[0].octets().hex(), (
        "000001c840000044000001af40000018000001a5400000100000000000001388000001b04000000c0000000a"
        "000001c04000000c000002580000010c4000000c000007d1")
    yield output(world)[1:], printed([], "steps 7 skipped 0 entries 1", opened=1, r1=25)


def short_accounts():
    world = direct(of_subscriber(OPENING, "491700000002"))
    mscc = services_in(answers(world)[0])[0].octets().hex()
    yield mscc[-64:], "0000010c4000000c000007d1" "000001ae40000014000001c14000000c00000000"
    yield "000001a54000001000000000000007d0" in mscc, True
    yield account(world, 2), (12, 10)
    world = direct(of_subscriber(OPENING, "491700000003"))
    yield services_in(answers(world)[0])[0].octets().hex(), (
        "000001c840000020000001b04000000c0000000a0000010c4000000c00000fac")
    yield (result(answers(world)[0]), account(world, 3)), (2001, (4, 0))


def part_of_a_grant():
    for asked, granted, last in [(4500, 4500, False), (5500, 5000, True)]:
        opening = request(INITIAL, 0, [service(units(REQUESTED_UNITS, asked))])
        world = direct(of_subscriber(opening, "491700000004"))
        mscc = services_in(answers(world)[0])[0].octets().hex()
        yield (f"{granted:016x}" in mscc, "000001ae" in mscc), (True, last)
        yield account(world, 4), (27, 25)


def below_zero():
    later = update(1, units(REQUESTED_UNITS), units(USED_UNITS, 7000))
    world = direct(of_subscriber(OPENING, "491700000005"))
    yield account(world, 5), (25, 25)
    yield "000001ae" in answers(world)[0], False
    world = direct(of_subscriber(OPENING, "491700000005"), later)
    yield (account(world, 5), service_codes(answers(world)[1]), len(world.book.kept)), ((-10, 0), [4012], 2)


def overtaken():
    world = direct(OPENING, termination(2, units(USED_UNITS, 3000)), update(1, units(REQUESTED_UNITS)))
    yield [result(answer) for answer in answers(world)], [2001, 2001, 5002]
    yield output(world)[3:], printed([], "steps 19 skipped 0 entries 3", b1=985)


def looping():
    detected = printed([f"recv {C1} 1 {LOOP_REFUSAL}"], "steps 5 skipped 0 entries 0")
    yield output(loop_detected().played()), detected
    foreseen = LOOP_REFUSAL.replace("7231", "7232").replace("00000bbd", "00000bba")
    yield output(loop().played()), printed([f"recv {C1} 1 {foreseen}"], "steps 9 skipped 2 entries 0")


def passing_over():
    world = passed_over().played()
    yield [result(answer) for answer in answers(world)], [2001, 3002, 3002, 2001, 3002]
    yield (world.book.entries, account(world, 1)), (2, (960, 0))


def another_front():
    received = [f"recv {C1} 1 {answer_with(front=b'f2')}"]
    for script in (failover(), failover_while_picked()):
        yield output(script.played()), printed(received, "steps 15 skipped 0 entries 1", b1=980)
    world = Script("").up((C1, R1), (R1, F1), (R1, F2)).send(C1, R1, F1, message=DEBIT).step("cut", R1, F1).played()
    resent, = world.flight(R1, F2)
    yield (resent.octets()[:8].hex(), resent.length), ("0100010cd0000110", 268)


def one_front_alone():
    refused, answered = answers(host_gone().played())
    yield (refused[8:10], result(refused), b"r1.example".hex() in refused), ("60", 3002, True)
    yield answered, answer_with(front=b"f2")
    yield output(host_gone().played())[2:], printed([], "steps 18 skipped 0 entries 1", b1=980)


def gone_client():
    received = [f"recv {C2} 2 {answer_with(session=b'c2;1;1')}"]
    yield output(client_gone().played()), printed(received, "steps 19 skipped 0 entries 2", b1=960)


def unknown_avps():
    world = direct(appended(DEBIT, Avp(873, b"", 0xC0, 10_415)))
    yield output(world)[:2], [f"recv {C1} 1 {ANSWER_OCTETS}", "end steps 7 skipped 0 entries 1"]
    world = direct(replace(DEBIT, body=DEBIT.body + bytes.fromhex("0000270f4000000c00000001")))
    refused, = answers(world)
    yield (refused[8:10], len(refused) // 2, result(refused), refused[-40:], len(world.book.kept)), (
        "60", 108, 5001, "00000117400000140000270f4000000c00000001", 0)
    yield answers(direct(appended(DEBIT, number(440, 1)))), [ANSWER_OCTETS]


def faulty_avps():
    beyond = DEBIT_OCTETS.replace("000001b04000000c", "000001b040000010")
    refusals = [
        (without(DEBIT, CC_REQUEST_NUMBER), 5005, "00000117400000140000019f4000000c00000000"),
        (Message.read(bytes.fromhex(beyond)), 5014, "0000011740000014000001b04000000c00000000"),
        (without(DEBIT, SESSION_ID), 5005, "00000117400000100000010740000008"),
        (changed(DEBIT, number(CC_REQUEST_TYPE, 5)), 5004, "0000011740000014000001a04000000c00000005"),
        (appended(DEBIT, number(CC_REQUEST_NUMBER, 0)), 5009, "00000117400000140000019f4000000c00000000")]
    for message, code, failed in refusals:
        refused, = answers(direct(message))
        yield (result(refused), refused[-len(failed):]), (code, failed)
    yield len(answers(direct(without(DEBIT, SESSION_ID)))[0]) // 2, 88


def other_contents():
    world = other_content().played()
    refused = answers(world)[1]
    yield (refused[:8], refused[8:10], result(refused), services_in(refused)), ("0100007c", "40", 5012, [])
    received = [f"recv {C1} 1 {answer}" for answer in [ANSWER_OCTETS, refused, ANSWER_OCTETS, ANSWER_OCTETS]]
    yield output(world), printed(received, "steps 25 skipped 0 entries 1", b1=980)
    with_time = appended(DEBIT, TIMESTAMP)
    yield (with_time.length, with_time.octets()[-12:].hex()), (260, "000000374000000ce0000000")
    one = service(units(REQUESTED_UNITS, 1000))
    two = replace(one, value=number(SERVICE_IDENTIFIER, 1).octets() + one.value)
    used = update(1, units(REQUESTED_UNITS), units(USED_UNITS, 3000))
    for opening, first, other in [
            ([OPENING], used, update(1, units(REQUESTED_UNITS), units(USED_UNITS, 3001))),
            ([], request(EVENT, 0, [one, two], DIRECT_DEBITING), request(EVENT, 0, [two, one], DIRECT_DEBITING)),
            ([], DEBIT, appended(DEBIT, subscription("491700000002"))), ([], OPENING, termination(0)),
            ([OPENING], termination(1), update(1))]:
        messages = [*opening, first, other, first]
        world = charged(*((message, 1000 * moment) for moment, message in enumerate(messages, 1)))
        kept, refused, repeated = answers(world)[-3:]
        yield (result(refused), services_in(refused), repeated == kept), (5012, [], True)
        unasked = charged(*((message, 1000 * moment) for moment, message in enumerate([*opening, first], 1)))
        yield (account(world, 1), len(world.book.sessions)), (account(unasked, 1), len(unasked.book.sessions))


def nothing_or_too_early():
    yield output(Script("").played()), printed([], "steps 0 skipped 0 entries 0")
    yield output(Script("").carry(C1, F1).played()), printed([], "steps 1 skipped 1 entries 0")


def events():
    world = direct(event(PRICE_ENQUIRY, 3200))
    enquired, = answers(world)
    cost = ("000001a740000038000001bd40000024000001bf400000100000000000000014000001ad4000000cfffffffe"
            "000001a94000000c000003d2")
    yield (services_in(enquired), enquired[-len(cost):], account(world, 1), len(world.book.kept)), (
        [], cost, (1000, 0), 1)
    refused, = answers(direct(of_subscriber(event(DIRECT_DEBITING, 3200), "499")))
    yield (result(refused), refused[8:10]), (5030, "40")
    world = direct(event(REFUND_ACCOUNT, 3200))
    yield (len(answers(world)[0]) // 2, account(world, 1)), (124, (1020, 0))
    checked, = answers(direct(of_subscriber(event(CHECK_BALANCE, 3200), "491700000003")))
    yield (len(checked) // 2, checked[-24:], result(checked)), (136, "000001a64000000c00000001", 2001)
    short, = answers(direct(of_subscriber(DEBIT, "491700000003")))
    yield (len(short) // 2, short[:16], result(short), services_in(short)), (124, "0100007c40000110", 4012, [])


def two_services():
    def both(place, kind, *pairs):
        first, second = (service(*inner) for inner in pairs)
        second = replace(second, value=number(SERVICE_IDENTIFIER, 1).octets() + second.value)
        return of_subscriber(request(kind, place, [first, second]), "491700000004")

    opening = both(0, INITIAL, [units(REQUESTED_UNITS)], [units(REQUESTED_UNITS)])
    world = direct(opening)
    yield (service_codes(answers(world)[0]), account(world, 4)), ([2001, 4012], (27, 25))
    world = direct(opening, both(1, UPDATE, [units(REQUESTED_UNITS)], [units(USED_UNITS, 1000)]))
    first, second = (avp.octets().hex() for avp in services_in(answers(world)[1]))
    yield (service_codes(answers(world)[1]), account(world, 4)), ([2001, 2001], (22, 20))
    yield (f"{4000:016x}" in first, "000001ae" in first, "000001af" in second), (True, True, False)


def limits():
    script = Script("").up((C1, R1), (R1, F1))
    for _ in range(16_385):
        script.send(C1, R1, message=DEBIT)
    world = script.played()
    refused, = world.flight(R1, C1)
    yield (len(world.flight(R1, F1)), result(refused.octets().hex())), (16_384, 3004)
    other = of_session(DEBIT, "c1;1;2")
    world = direct(DEBIT, other, again(DEBIT, 8), site=replace(ROW_SITE, limit=1))
    first, full, repeat = answers(world)
    yield (first, result(full), full[8:10], repeat), (ANSWER_OCTETS, 3004, "60", answer_with(8))
    script = Script("").up((C1, F1)).send(C1, F1, message=DEBIT).send(C1, F1, message=DEBIT).carry(F1, C1)
    busy, = answers(script.played(replace(ROW_SITE, workers=1, queue=1)))
    yield (len(busy) // 2, busy[:16], busy[-24:]), (88, "0100005860000110", "0000010c4000000c00000bbc")


def relay_lines():
    """What r1 says to the debit, changed as said: the answer's flags and code, or the peer to which it is forwarded."""
    cases = [
        (DEBIT, F1), (replace(DEBIT, flags=0x80), (0x20, 3001)),
        (to_host(without(DEBIT, DESTINATION_REALM), F1), (0x60, 3002)), (to_host(DEBIT, R1), (0x60, 3007)),
        (without(DEBIT, DESTINATION_REALM), (0x60, 3007)), (to_host(DEBIT, C2), (0x60, 3002)),
        (to_host(DEBIT, "F2.EXAMPLE"), F2), (to_host(DEBIT, "zz.example"), F1), (to_host(DEBIT, R2), R2),
        (to_realm(DEBIT, "nowhere.example"), (0x60, 3003)), (to_realm(DEBIT, "OCS.EXAMPLE"), F1),
        (replace(DEBIT, application=3), (0x60, 3002)),
        (appended(DEBIT, text(ROUTE_RECORD, "R1.example")), (0x60, 3005)),
        (appended(DEBIT, text(ROUTE_RECORD, "r1.example.org")), F1),
        (appended(DEBIT, text(ROUTE_RECORD, "F1.example")), F2), (appended(DEBIT, text(ROUTE_RECORD, "f1.exampl")), F1),
        (appended(DEBIT, *[text(ROUTE_RECORD, name) for name in (F1, R2, F2)]), (0x60, 3002)),
        (appended(to_host(DEBIT, R2), text(ROUTE_RECORD, R2)), (0x60, 3002)),
        (appended(DEBIT, *[text(ROUTE_RECORD, F1)] * 1000), F2), (appended(DEBIT, Avp(ROUTE_RECORD, b"")), F1),
        (appended(DEBIT, Avp(ROUTE_RECORD, bytes(300)), text(ROUTE_RECORD, F1)), F2),
        (appended(DEBIT, text(264, F1)), F1),
        (replace(DEBIT, body=DEBIT.body + bytes(4)), (0x60, 5014)), (replace(DEBIT, flags=0x40), None)]
    for message, wanted in cases:
        world = Script("").up((C1, R1), (C2, R1), (R1, F1), (R1, F2), (R1, R2)).send(C1, R1, message=message).played()
        sent = [(peer, flight[0]) for peer in ROW_SITE.nodes if (flight := world.flight(R1, peer))]
        given = None
        for peer, out in sent:
            given = peer if out.is_request else (out.flags, code_of(split(out.body)))
        yield (given, len(sent)), (wanted, wanted is not None)


def lost_and_restarted():
    yield output(relayed_debit().played())[:2], [f"recv {C1} 1 {ANSWER_OCTETS}", "end steps 10 skipped 0 entries 1"]
    received = [f"recv {C1} 1 {answer_with(8)}"]
    yield output(lost_answer().played()), printed(received, "steps 17 skipped 0 entries 1", b1=980)
    received = [f"recv {C1} 3 {answer_with(8)}"]
    yield output(restarted_relay().played()), printed(received, "steps 19 skipped 0 entries 1", b1=980)
    world = nowhere_to_go().played()
    yield (world.received, world.flight(R1, F2), world.nodes[R1].pending), ([], [], {})


def charged(*pairs, site=ROW_SITE, sweeps=()):
    """The farm after messages that c1 sends to f1, each charged at its moment, and sweeps after that."""
    script = Script("").up((C1, F1))
    for message, moment in pairs:
        script.send(C1, F1, message=message).answer(F1, moment).carry(F1, C1)
    for moment in sweeps:
        script.step("sweep", moment)
    return script.played(site)


def swept_sessions():
    yield output(session_not_due().played())[1:], printed([], "steps 8 skipped 0 entries 1", opened=1, r1=25)
    yield output(session_abandoned().played())[1:], printed([], "steps 10 skipped 0 entries 2")
    yield output(session_kept_up().played())[2:], printed([], "steps 15 skipped 0 entries 3")
    latest = session_of_the_latest_moment().played()
    yield output(latest)[1:], printed([], "steps 8 skipped 0 entries 1", opened=1, r1=25)
    world = session_swept_from_under().played()
    yield [result(answer) for answer in answers(world)], [2001, 2001, 5002, 2001]
    yield output(world)[4:], printed([], "steps 37 skipped 0 entries 5", opened=1, b1=975, r1=25)
    later = update(1, units(REQUESTED_UNITS))
    kept = charged((OPENING, 1000), (later, 500_000), sweeps=[1_699_999])
    yield (kept.book.entries, len(kept.book.sessions)), (2, 1)
    for moment, entries, sessions in [(1_200_499, 2, 1), (1_200_500, 3, 0)]:
        world = charged((OPENING, 1000), (later, 500), sweeps=[moment])
        yield (world.book.entries, len(world.book.sessions)), (entries, sessions)
    debit = changed(DEBIT, number(CC_REQUEST_NUMBER, 7))
    for moment, entries, sessions in [(1_200_999, 2, 1), (1_201_000, 3, 0)]:
        world = charged((OPENING, 1000), (debit, 900_000), sweeps=[moment])
        yield (world.book.entries, len(world.book.sessions)), (entries, sessions)
    repeat = charged((OPENING, 1000), (again(OPENING, 8), 900_000), sweeps=[1_201_000])
    yield (repeat.book.entries, len(repeat.book.sessions)), (2, 0)
    full = charged((OPENING, 1000), site=replace(ROW_SITE, limit=1), sweeps=[1_201_000])
    yield (full.book.entries, len(full.book.sessions), full.skipped, account(full, 1)), (1, 1, 0, (1000, 25))


ROWS = [octets_are_told, relayed_request, first_debit, repeated_debit, opened_session, short_accounts, part_of_a_grant,
        below_zero, overtaken, looping, passing_over, another_front, one_front_alone, gone_client, unknown_avps,
        faulty_avps, other_contents, nothing_or_too_early, events, two_services, limits, relay_lines,
        lost_and_restarted, swept_sessions]


def failures():
    """The examples that fail, each with what the model gives and what has to be."""
    for row in ROWS:
        for given, wanted in row():
            if given != wanted:
                yield f"{row.__name__}: {given} and not {wanted}"
