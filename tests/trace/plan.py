"""The zones of the tree: those of tests/walk, with more records, and others; how each is signed, who has it, and what is wrong
with it."""

import time
import typing

from zones import HASHED, HEAD, How
from zones import ZONES as WALKED

OPT_OUT = (*HASHED, "-A")
SALTED = ("-3", "5a17", "-H", "5")
HEAVY = ("-3", "-", "-H", "150")
DAY = 86400
# Records of zones that have something of each kind: owner, TTL, type and data.
RICH = """\
www 430 A 192.0.2.30
mail 431 MX 10 www
alias 432 CNAME www
chain 433 CNAME alias
gone 434 CNAME none
less 435 CNAME ent
a.ent 436 A 192.0.2.31
*.wild 437 TXT star
*.wild 437 A 192.0.2.32
there.wild 438 TXT there
*.leads 439 CNAME www
via 440 CNAME any.wild
a.*.void 441 A 192.0.2.33
dn 442 DNAME target
x.target 443 A 192.0.2.34
through 444 CNAME x.dn
"""
MORE_OF_TEST = """\
chain 433 CNAME alias
less 435 CNAME deep
there.wild 438 TXT there
via 440 CNAME any.wild
a.*.void 441 A 192.0.2.35
lower 442 CNAME www.low.down
expired 443 CNAME www.late
changed 444 CNAME www.altered
left 445 CNAME www.open.opt.
apart 446 DNAME plain
"""
MORE_OF_OPT = """\
a.ent 436 A 192.0.2.36
there.wild 438 TXT there
into 440 CNAME www.open
moved 442 DNAME safe
"""
# Below an unsigned delegation: aliases to a name that is right, and to one that is bogus.
UNSIGNED = """\
www 450 A 192.0.2.50
alias 451 CNAME www.signed.test.
worse 452 CNAME www.altered.test.
*.wild 453 A 192.0.2.51
"""
HOST = "www 460 A 192.0.2.60\n"


def moment(days):
    return time.strftime("%Y%m%d%H%M%S", time.gmtime(time.time() + days * DAY))


NOW, PAST, FUTURE = (moment(-1), moment(60)), (moment(-60), moment(-30)), (moment(30), moment(60))


class Has(typing.NamedTuple):
    """Who has a zone, its records, how it is signed, if it is, and its state: `right`; `unsigned`; `island` (no DS record); `unknown`
    (DS of no known algorithm), `undigested` (of no known digest), `old` (of RSA/SHA-1, which is to be treated as not known);
    `altered` and `stripped` signatures, `lost` ones (those of the keys too); `stranger` (DS of no key of the zone)."""

    server: str
    records: str
    how: How = How(dates=NOW)
    state: str = "right"


def how(algorithm="ECDSAP256SHA256", chain=(), is_single=False, dates=NOW):
    return How(algorithm, chain, is_single, dates)


def walked(apex):
    """The records that tests/walk has of a zone, but for its servers, which here are others."""
    return WALKED[apex].removeprefix(HEAD).replace("ns 400 A 127.0.0.1\n", "")


ZONES = {
    ".": Has("root", ""),
    "test": Has("tops", walked("test") + MORE_OF_TEST),
    "opt": Has("opt", walked("opt") + MORE_OF_OPT, how(chain=OPT_OUT)),
    # Below the first.
    "signed.test": Has("NSD", walked("signed.test") + RICH.replace("www 430 A 192.0.2.30\n", "")),
    "sub.signed.test": Has("Knot", HOST),
    "open.signed.test": Has("NSD", UNSIGNED, state="unsigned"),
    "hashed.test": Has("Knot", RICH, how("RSASHA256", SALTED)),
    "open.hashed.test": Has("NSD", UNSIGNED, state="unsigned"),
    "one.test": Has("Knot", walked("one.test") + "*.wild 437 TXT star\n", how("ED25519", is_single=True)),
    "low.down.test": Has("Knot", walked("low.down.test") + "*.wild 437 TXT star\n", how("ECDSAP384SHA384")),
    "both.test": Has("tops", walked("both.test") + "*.wild 437 TXT star\n"),
    "bare.test": Has("tops", walked("bare.test"), state="unsigned"),
    "plain.test": Has("NSD", UNSIGNED.replace("www 450 A 192.0.2.50", walked("plain.test").strip()), state="unsigned"),
    "island.test": Has("NSD", HOST, state="island"),
    "old.test": Has("named", walked("old.test"), how("RSASHA1"), "old"),
    "unknown.test": Has("named", HOST, state="unknown"),
    "undigested.test": Has("named", HOST, state="undigested"),
    "late.test": Has("named", walked("late.test"), how(dates=PAST)),
    "early.test": Has("named", HOST, how(dates=FUTURE)),
    "lost.test": Has("NSD", walked("lost.test"), state="lost"),
    "stripped.test": Has("NSD", HOST, state="stripped"),
    "altered.test": Has("NSD", HOST + "*.wild 437 TXT star\n", state="altered"),
    "stranger.test": Has("NSD", HOST, state="stranger"),
    # Below the second.
    "safe.opt": Has("NSD", walked("safe.opt") + RICH.replace("www 430 A 192.0.2.30\n", ""), how(chain=HASHED)),
    "wide.opt": Has("named", RICH, how(chain=OPT_OUT)),
    "sub.wide.opt": Has("Knot", HOST, how(chain=HASHED)),
    "open.wide.opt": Has("named", UNSIGNED, state="unsigned"),
    "open.opt": Has("NSD", walked("open.opt"), state="unsigned"),
    "x.hidden.opt": Has("NSD", HOST, state="unsigned"),
    "heavy.opt": Has("named", HOST, how(chain=HEAVY)),
}
