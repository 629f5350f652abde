#!/usr/bin/env python3
"""The rules of docs/rehearse.md, written once more in Python over the model of the platforms.

    tools/rehearsal.py SEED BILLS STEPS   writes the line of that rehearsal
"""
import collections
import json
import sys

import model
from program import words_of

PLATFORMS = ("ALPH", "BETA", "GAMM")
PARTIES = tuple(p + "/" + name for p in PLATFORMS for name in ("ONE", "TWO"))
CARRIER = PARTIES[0]
ROSTER = {"platforms": list(PLATFORMS), "parties": list(PARTIES),
          "carriers": [{"provider": "NMFTA", "code": "OCNL", "party": CARRIER}]}


class Generator:
    """What happens, drawn from a state below 2^64."""

    def __init__(self, seed, bills, world):
        self.state, self.bills, self.world = seed, bills, world

    def draw(self, n):
        self.state = (self.state * 6364136223846793005 + 1442695040888963407) % 2**64
        return self.state // 2**33 % n

    def sign(self, k):
        document = {"carrierCode": "OCNL", "carrierCodeListProvider": "NMFTA", "isToOrder": True,
                    "transportDocumentReference": "R%d" % k, "transportDocumentTypeCode": "BOL"}
        return {"at": "ALPH", "party": CARRIER, "do": "SIGN", "document": document}

    def issue(self, k):
        return {"at": "ALPH", "party": CARRIER, "do": "ISSUE", "bill": k, "recipient": PARTIES[self.draw(6)]}

    def act(self):
        k, what, recipient = 1 + self.draw(self.bills), self.draw(8), PARTIES[self.draw(6)]
        actor = CARRIER
        if k <= len(self.world.signed):
            row = json.loads(self.world.bill_line(k, self.world.signed[k - 1]))
            actor = row.get("possessor", CARRIER)
        event = {"at": model.platform_of(actor), "party": actor, "bill": k}
        if what < 6:
            return dict(event, do="TRANSFER" if what < 4 else "ENDORSE", recipient=recipient)
        return dict(event, do="SURRENDER_FOR_DELIVERY" if what == 6 else "SURRENDER_REFUSED")

    def deliver(self):
        count = len(self.world.sent)
        return {"deliver": count - self.draw(min(count, 8)) if count else 1}

    def resend(self):
        k = 1 + self.draw(self.bills)
        return {"at": PLATFORMS[self.draw(3)], "resend": True, "bill": k}

    def restart(self):
        return {"restart": PLATFORMS[self.draw(3)]}

    def happen(self):
        drawn = self.draw(10)
        return (self.act if drawn < 4 else self.deliver if drawn < 8 else self.resend if drawn == 8
                else self.restart)()


def line_of(seed, bills, steps):
    """What a rehearsal writes."""
    world = model.World(model.Roster(ROSTER))
    made, replies = Generator(seed, bills, world), collections.Counter()

    def take(event):
        replies[json.loads(world.step(event))["reply"]] += 1

    for k in range(1, bills + 1):
        take(made.sign(k))
        take(made.issue(k))
    for _ in range(steps):
        take(made.happen())
    rows = [json.loads(line) for line in world.bill_lines()]
    summary = {"bills": bills, "entries": sum(row["entries"] for row in rows), "events": 2 * bills + steps,
               "forked": any(row["forked"] for row in rows), "replies": dict(replies)}
    return model.canon(summary) + "\n"


if __name__ == "__main__":
    words = words_of(__doc__)
    for name in ("seed", "bills", "steps"):
        words.add_argument(name, type=int)
    given = words.parse_args()
    sys.stdout.write(line_of(given.seed, given.bills, given.steps))
