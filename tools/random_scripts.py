#!/usr/bin/env python3
"""Runs random scripts over three platforms, and says whether every bill stayed safe by what the program answered.

    tools/random_scripts.py [--scripts N] [--seconds S] [--seed TEXT] [--jobs N] [--program WORD]

A script has commands by the right and by wrong parties, deliveries in any order and number and to any platform, bytes
from outside that were sent before or are rubbish, resends and restarts. Now and then each platform is asked how each
bill is. What the program writes is judged twice: by the promise itself, on the answers alone (no dispute, nothing
forked, at most one platform where somebody may act, and that is the end; chains only grow; what was surrendered stays
so), and line by line beside model.py. Where something differs, the script's seed is printed and the script is kept.

Its last line is 'N scripts, M events, F failed, seed TEXT', and it ends with status 1 where something failed.
"""
import base64
import collections
import concurrent.futures
import json
import os
import random
import subprocess
import sys
import time

import model
from program import PROGRAM, is_built, words_of

PLATFORMS = ["ALPH", "BETA", "GAMM"]
PARTIES = ["%s/%s" % (p, name) for p in PLATFORMS for name in ("ONE", "TWO")]
# Parties that no platform knows, and one of a platform that isn't there.
STRANGERS = ["ALPH/NOBODY", "BETA/NOBODY", "GAMM/NOBODY", "OMEG/ONE"]
CARRIERS = [{"provider": "NMFTA", "code": "OCNL", "party": "ALPH/ONE"},
            {"provider": "SMDG", "code": "BOAT", "party": "BETA/TWO"}]
ROSTER = {"roster": {"platforms": PLATFORMS, "parties": PARTIES, "carriers": CARRIERS}}
FILES = [b"abc", b"{}", b"", b"packing list"]
# Further members of a document: they are unread, but part of the bill's name.
FURTHER = [{}, {}, {"grossWeight": 24000.5, "\u20ac": None},
           {"\ufb33": -0.5, "\U0001f600": ["\u007f\n\"", {"b": 0, "a": True}]}]


def line_of(value):
    return json.dumps(value, separators=(",", ":"), sort_keys=True)


class Writer:
    """Writes one random script, a step ahead of the model, which says what there is to act on."""

    def __init__(self, seed):
        self.random = random.Random(seed)
        # How often the newest message is delivered: some scripts are orderly and get far, others are not.
        self.order = self.random.random()
        self.world = model.World(model.Roster(ROSTER["roster"]))
        self.lines, self.expected, self.bursts = [line_of(ROSTER)], [], []
        self.documents = []
        self.write(self.sign(CARRIERS[0]))
        for _ in range(self.random.choice((10, 25, 50, 100))):
            self.write(self.event())
            if self.random.random() < 0.06:
                self.ask_all()
        self.ask_all()
        for _ in range(min(3, len(self.world.sent))):
            self.write(self.show())

    def script(self):
        return "".join(line + "\n" for line in self.lines).encode()

    def expected_text(self):
        return "".join(line + "\n" for line in self.expected + self.world.bill_lines()).encode()

    def write(self, event):
        self.lines.append(line_of(event))
        self.expected.append(self.world.step(event))

    def ask_all(self):
        """Each platform is asked how each bill is; where in the script this is, is kept."""
        begun = self.world.events
        for number in range(1, len(self.world.signed) + 1):
            for at in PLATFORMS:
                self.write({"ask": True, "at": at, "bill": number})
        self.bursts.append((begun, self.world.events))

    def event(self):
        makers = [(30, self.deed), (36, self.delivery), (5, self.resend), (2, self.restart), (2, self.show),
                  (10, self.foreign), (4, self.attach), (1, self.ask)]
        if len(self.world.signed) < 3:
            makers.append((4, lambda: self.sign(self.random.choice(CARRIERS))))
        weights, choices = zip(*makers)
        return self.random.choices(choices, weights)[0]()

    # events

    def sign(self, carrier):
        """Now and then a document that was signed before."""
        if not self.documents or self.random.random() < 0.8:
            self.documents.append((carrier, self.document(carrier)))
        carrier, document = self.documents[-1]
        return {"at": model.platform_of(carrier["party"]), "do": "SIGN", "document": document,
                "now": self.random.randrange(model.MOST_NUMBER), "party": carrier["party"]}

    def document(self, carrier):
        """A document; of more than half of them the bills are of one shard."""
        document = {**self.random.choice(FURTHER), "carrierCode": carrier["code"], "transportDocumentTypeCode": "BOL",
                    "carrierCodeListProvider": carrier["provider"], "isToOrder": self.random.random() < 0.8}
        is_of_first = self.random.random() < 0.5
        while True:
            document["transportDocumentReference"] = "R%d" % self.random.randrange(10**9)
            if not is_of_first or int(model.bill_of(document)[:2], 16) % model.SHARDS == 0:
                return document

    def number(self):
        return self.random.randint(1, len(self.world.signed) + (self.random.random() < 0.05))

    def standing(self, number):
        """(where a bill is held, its title), or None where it is under way or not there."""
        if number > len(self.world.signed):
            return None
        bill = self.world.signed[number - 1]
        for at in PLATFORMS:
            place = self.world.shard_of(at, bill).place(bill)
            if place.tag == "HELD":
                return at, model.fold(place.transactions())
        return None

    def deed(self):
        number = self.number()
        standing = self.standing(number)
        if standing is None or self.random.random() < 0.12:
            return self.any_deed(number)
        at, title = standing
        kinds = {"SIGNED": ["ISSUE"], "LIVE": ["TRANSFER"] * 6 + ["ENDORSE"] * 3 + list(model.SURRENDERS),
                 "ASKED": ["SURRENDER_REFUSED"] * 3 + ["SURRENDER_ACCEPTED"], "ENDED": list(model.KINDS[1:])}
        kind = self.random.choice(kinds[title.state])
        event = {"at": at, "bill": number, "do": kind, "party": title.possessor}
        if kind in ("ISSUE", "TRANSFER", "ENDORSE"):
            event["recipient"] = self.random.choice(PARTIES * 3 + STRANGERS)
        return event

    def any_deed(self, number):
        party = self.random.choice(PARTIES + STRANGERS[:1])
        at = model.platform_of(party) if self.random.random() < 0.8 else self.random.choice(PLATFORMS)
        event = {"at": at, "bill": number, "do": self.random.choice(model.KINDS[1:]), "party": party}
        if self.random.random() < 0.7:
            event["recipient"] = self.random.choice(PARTIES + STRANGERS)
        return event

    def attach(self):
        number = self.number()
        standing = self.standing(number)
        data = base64.b64encode(self.random.choice(FILES)).decode()
        at, party = (standing[0], standing[1].possessor) if standing else ("ALPH", "ALPH/ONE")
        return {"at": at, "bill": number, "bytes": data, "do": "ATTACH", "media": "text/plain", "name": "file",
                "party": party}

    def message(self):
        """The number of a message, a recent one rather than an old one."""
        sent = len(self.world.sent)
        if sent == 0 or self.random.random() < 0.02:
            return sent + self.random.randint(1, 3)
        if self.random.random() < self.order:
            return sent
        return sent - self.random.randrange(min(sent, self.random.choice((5, sent))))

    def delivery(self):
        event = {"deliver": self.message()}
        parcel = self.world.parcel(event["deliver"])
        if self.random.random() < (0.8 if parcel and parcel["to"] is None else 0.07):
            event["at"] = self.random.choice(PLATFORMS)
        return event

    def resend(self):
        return {"at": self.random.choice(PLATFORMS), "bill": self.number(), "resend": True}

    def ask(self):
        return {"ask": True, "at": self.random.choice(PLATFORMS), "bill": self.number()}

    def restart(self):
        return {"restart": self.random.choice(PLATFORMS)}

    def show(self):
        return {"show": self.message()}

    # bytes from outside: what was sent before, cut or joined anew, or rubbish. Nobody forges a signature.

    def foreign(self):
        at = self.random.choice(PLATFORMS)
        sent = self.world.sent
        parcel = self.random.choice(sent) if sent else None
        if parcel is None or self.random.random() < 0.1:
            return self.rubbish(at)
        kind = parcel["kind"]
        if kind == "START":
            return {"at": at, "body": self.body(parcel), "foreign": "START"}
        if kind in ("PUT", "FINISH"):
            return self.upload(at, parcel)
        return self.reply(at, parcel)

    def body(self, parcel):
        text = parcel["data"].decode()
        if self.random.random() < 0.5:
            return text
        other = json.loads(self.random.choice([it for it in self.world.sent if it["kind"] == "START"])["data"])
        body = json.loads(text)
        change = self.random.randrange(6)
        if change == 0:
            body["chain"] = body["chain"][:self.random.randrange(len(body["chain"]) + 1)]
        elif change == 1:
            del body["chain"][self.random.randrange(len(body["chain"]))]
        elif change == 2:
            body["chain"] = body["chain"] + other["chain"]
        elif change == 3:
            name = self.random.choice(("document", "manifest", "chain"))
            body[name] = other[name]
        elif change == 4:
            body["further"] = None
        else:
            del body[self.random.choice(("document", "manifest", "chain"))]
        return json.dumps(body)

    def upload(self, at, parcel):
        reference = model.reference_text(parcel["reference"])
        if parcel["kind"] == "FINISH" and self.random.random() < 0.5:
            return {"at": at, "foreign": "FINISH", "reference": reference}
        data = self.random.choice(FILES)
        named = parcel.get("checksum") or model.checksum(self.random.choice([data, *FILES]))
        return {"at": at, "bytes": base64.b64encode(data).decode(), "checksum": named, "foreign": "PUT",
                "reference": reference}

    def reply(self, at, parcel):
        bill = self.random.choice([parcel["bill"], self.number()])
        kind = self.random.choice(("START_REPLY", "FINISH_REPLY"))
        return {"at": at, "bill": bill, "foreign": kind, "text": parcel["data"].decode()}

    def rubbish(self, at):
        text = self.random.choice(("", "{}", "{", "a.b.c", "[]", "\u20ac"))
        kind = self.random.choice(("START", "FINISH", "START_REPLY", "FINISH_REPLY"))
        if kind == "START":
            return {"at": at, "body": text, "foreign": kind}
        if kind == "FINISH":
            return {"at": at, "foreign": kind, "reference": "00000000-0000-0000-0000-%012d" % self.random.randrange(9)}
        return {"at": at, "bill": self.number(), "foreign": kind, "text": text}


# ---- what is promised, by the answers alone

def faults(rows, events, bursts):
    """What the answers say against the promise."""
    answers, bills = rows[:events], rows[events:]
    found = ["event %d is a dispute" % row["event"] for row in answers if row["reply"] == "DISE"]
    grown, ended = collections.defaultdict(int), set()
    for begun, end in bursts:
        found += burst_faults(answers[begun:end], grown, ended)
    for row in bills:
        found += bill_faults(row, grown, ended)
    return found


def burst_faults(answers, grown, ended):
    """Of the views of each bill on all platforms, between which nothing changed."""
    found = []
    for at in range(0, len(answers), len(PLATFORMS)):
        event = answers[at]["event"]
        views = [row["view"] for row in answers[at:at + len(PLATFORMS)]]
        bill = views[0]["bill"]
        here = [it for it in views if it["place"] in ("HELD", "PARTING")]
        longest = max(it["entries"] for it in views)
        if sum(it["place"] == "HELD" and it["state"] != "ENDED" for it in views) > 1:
            found.append("event %d: two platforms let somebody act on bill %s" % (event, bill))
        if sum(it["entries"] == longest for it in here) != 1:
            found.append("event %d: not exactly one platform is the end of bill %s" % (event, bill))
        if longest < grown[bill]:
            found.append("event %d: the chain of bill %s has shrunk" % (event, bill))
        grown[bill] = longest
        states = {it["state"] for it in here if it["entries"] == longest}
        if bill in ended and states != {"ENDED"}:
            found.append("event %d: bill %s was surrendered and isn't any more" % (event, bill))
        if states == {"ENDED"}:
            ended.add(bill)
    return found


def bill_faults(row, grown, ended):
    found, bill = [], row["bill"]
    if row["forked"]:
        found.append("bill %d is forked" % bill)
    if row["acts"] not in ([], [row["end"]]):
        found.append("bill %d: others than its end may act" % bill)
    if row["entries"] != grown[bill]:
        found.append("bill %d: its chain isn't the longest that was shown" % bill)
    if (row["state"] == "ENDED") != (bill in ended) or row["state"] == "ENDED" and row["acts"]:
        found.append("bill %d: surrendered or not" % bill)
    return found


# ---- runs

def judge(seed, program):
    """(events, what is wrong) of the script of a seed."""
    writer = Writer(seed)
    ended = subprocess.run([program, "drive"], input=writer.script(), stdout=subprocess.PIPE, stderr=subprocess.PIPE)
    events = writer.world.events
    if ended.returncode:
        return events, ["exit %d: %s" % (ended.returncode, ended.stderr.decode(errors="replace")[-300:])]
    found = differing(ended.stdout, writer.expected_text())
    rows = [json.loads(line) for line in ended.stdout.splitlines()]
    if len(rows) != events + len(writer.world.signed):
        return events, found
    return events, found + faults(rows, events, writer.bursts)


def differing(written, expected):
    if written == expected:
        return []
    pairs = zip(written.splitlines() + [b""], expected.splitlines() + [b""])
    at, (ours, models) = next((at, pair) for at, pair in enumerate(pairs, 1) if pair[0] != pair[1])
    return ["line %d of the answers is %s where the model says %s" % (at, ours.decode(), models.decode())]


def keep(seed):
    """The file to which the script of a seed that failed is written."""
    name = "failed-%s.jsonl" % seed.replace("/", "-")
    with open(name, "wb") as file:
        file.write(Writer(seed).script())
    return os.path.abspath(name)


def main():
    words = words_of(__doc__)
    words.add_argument("--scripts", type=int, default=10_000)
    words.add_argument("--seconds", type=float, default=50)
    words.add_argument("--seed", default=os.urandom(4).hex())
    words.add_argument("--jobs", type=int, default=len(os.sched_getaffinity(0)))
    words.add_argument("--program")
    given = words.parse_args()
    if given.program is None and not is_built():
        sys.exit("no proved program of these sources: run make program first")
    program, until = given.program or PROGRAM, time.monotonic() + given.seconds
    scripts = events = failed = 0
    with concurrent.futures.ProcessPoolExecutor(given.jobs) as pool:
        for begin in range(0, given.scripts, 8 * given.jobs):
            if time.monotonic() > until:
                break
            seeds = ["%s/%d" % (given.seed, at) for at in range(begin, min(begin + 8 * given.jobs, given.scripts))]
            for seed, (count, found) in zip(seeds, pool.map(judge, seeds, [program] * len(seeds))):
                scripts, events, failed = scripts + 1, events + count, failed + bool(found)
                if found:
                    print("failed: seed %s, kept as %s\n  %s" % (seed, keep(seed), "\n  ".join(found)), flush=True)
    print("%d scripts, %d events, %d failed, seed %s" % (scripts, events, failed, given.seed))
    return 1 if failed else 0


if __name__ == "__main__":
    sys.exit(main())
