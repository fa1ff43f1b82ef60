"""The site over which schedules are replayed where no other one is named."""
from site_data import CLIENT, CREDIT_CONTROL_APPLICATION, FRONT, RELAY, Site, Tariff

CC_TOTAL_OCTETS = 421


def example(*names):
    return [f"{name}.example" for name in names]


R1, R2, F1, F2, C1, C2 = example("r1", "r2", "f1", "f2", "c1", "c2")

ROW_SITE = Site(
    realm="ocs.example", validity=600, currency=978, exponent=-2,
    nodes={R1: RELAY, R2: RELAY, F1: FRONT, F2: FRONT, C1: CLIENT, C2: CLIENT},
    links=[(C1, R1), (C2, R1), (C1, F1), (R1, R2), (R1, F1), (R1, F2), (R2, F1), (R2, F2)],
    # Routes: the relay, the realm and the application, and the peers in the order in which they are tried.
    routes={(R1, "ocs.example", CREDIT_CONTROL_APPLICATION): [F1, F2, R2],
            (R2, "ocs.example", CREDIT_CONTROL_APPLICATION): [F1, F2],
            (R1, "loop.example", CREDIT_CONTROL_APPLICATION): [R2],
            (R2, "loop.example", CREDIT_CONTROL_APPLICATION): [R1]},
    group_tariffs={10: Tariff(CC_TOTAL_OCTETS, block=1000, price=5, quantum=5000, greatest=10_000)},
    ident_tariffs={},
    accounts={(0, f"49170000000{digit}"): opening for digit, opening in enumerate([1000, 12, 4, 27, 25], 1)},
)
