#!/usr/bin/env python3
"""Makes the scripts over several platforms in this folder, and the lines that each must write.

What an event is answered stands here beside it, by hand, as far as it matters; the whole lines are those of
tools/model.py, which has the rules once more. Texts from outside are signed with the test signer's keys, which anybody
can derive.
"""
import base64
import itertools
import json
import os
import sys

HERE = os.path.dirname(os.path.abspath(__file__))
sys.path.insert(0, os.path.join(os.path.dirname(HERE), "tools"))
import model  # noqa: E402

CARRIER, EXPORT, BANK, IMPORT, AGENT = "ALPH/CARRIER", "ALPH/EXPORT", "ALPH/BANK", "BETA/IMPORT", "GAMM/AGENT"
CARRIERS = [{"code": "OCNL", "party": CARRIER, "provider": "NMFTA"}]
ONE_PLATFORM = {"carriers": CARRIERS, "parties": [BANK, CARRIER, EXPORT], "platforms": ["ALPH"]}
THREE_PLATFORMS = {"carriers": CARRIERS, "parties": [BANK, CARRIER, EXPORT, IMPORT, AGENT],
                   "platforms": ["ALPH", "BETA", "GAMM"]}
DOCUMENT = {"carrierCode": "OCNL", "carrierCodeListProvider": "NMFTA", "isToOrder": True,
            "transportDocumentReference": "OCNL0000001", "transportDocumentTypeCode": "BOL"}
BILL = model.bill_of(DOCUMENT)
ABC, EMPTY = model.checksum(b"abc"), model.checksum(b"{}")


class Script:
    """A script under way: each event is answered by the model, which has to agree with what is said by hand."""

    def __init__(self, name, roster=THREE_PLATFORMS):
        self.name, self.world = name, model.World(model.Roster(roster))
        self.lines, self.answers = [{"roster": roster}], []

    def event(self, event, reply, sent=(), **members):
        assert model.is_event(event), event
        answer = json.loads(self.world.step(event))
        said = {"reply": reply, "sent": list(sent), **members}
        found = {**answer, **answer.get("view", {})}
        for member, value in said.items():
            assert found.get(member) == value, (self.name, answer, member, value)
        self.lines.append(event)
        self.answers.append(answer)
        return answer

    def write(self, *bills):
        """Writes both files; bills are what the bill lines say, by hand."""
        ends = [json.loads(line) for line in self.world.bill_lines()]
        assert len(bills) == len(ends), self.name
        for said, line in zip(bills, ends):
            assert said.items() <= line.items(), (self.name, line)
        for end, rows in ((".jsonl", self.lines), (".out", self.answers + ends)):
            with open(os.path.join(HERE, self.name + end), "w", encoding="utf-8") as file:
                file.write("".join(model.canon(row) + "\n" for row in rows))

    def write_all(self):
        """The same where nothing is said of the bills by hand."""
        self.write(*[{}] * len(self.world.bill_lines()))

    # events that scripts share

    def act(self, at, do, actor, recipient=None, *, number=1, now=None, answer="DONE", sent=(), **members):
        event = {"at": at, "bill": number, "do": do, "party": actor}
        event.update({} if recipient is None else {"recipient": recipient}, **({} if now is None else {"now": now}))
        return self.event(event, answer, sent, **members)

    def sign(self, document=DOCUMENT, party=CARRIER, answer="DONE", **members):
        event = {"at": "ALPH", "do": "SIGN", "document": document, "now": 1000, "party": party}
        return self.event(event, answer, **members)

    def issue(self):
        self.sign(place="HELD", state="SIGNED", holder=CARRIER, possessor=CARRIER)
        return self.act("ALPH", "ISSUE", CARRIER, EXPORT, now=2000, state="LIVE", holder=EXPORT, possessor=EXPORT)

    def endorse(self):
        return self.act("ALPH", "ENDORSE", EXPORT, IMPORT, now=3000, holder=IMPORT, possessor=EXPORT)

    def part(self):
        """The bill is on its way to the importer's platform."""
        return self.act("ALPH", "TRANSFER", EXPORT, IMPORT, now=4000, sent=[1], place="PARTING", entries=0,
                        possessor=IMPORT)

    def regain(self):
        """The bill was sent to a party that BETA doesn't know, and is held again."""
        self.issue()
        self.act("ALPH", "TRANSFER", EXPORT, "BETA/NOBODY", sent=[1], place="PARTING")
        self.deliver(1, "BENV", [2], reason="PARTY", standing=True)
        self.deliver(2, "DONE", place="HELD", possessor=EXPORT)

    def begin(self):
        self.issue()
        self.endorse()
        return self.part()

    def deliver(self, number, reply, sent=(), at=None, **members):
        return self.event({"deliver": number, **({"at": at} if at else {})}, reply, sent, **members)

    def move(self):
        """The first bill is at the importer's platform, and the exporter's knows it."""
        self.begin()
        self.deliver(1, "RECE", [2], standing=False)
        self.deliver(2, "DONE", place="GONE", entries=1)

    def attach(self, data, name, reply="DONE", *, at="ALPH", number=1, actor=EXPORT, **members):
        return self.event({"at": at, "bill": number, "bytes": base64.b64encode(data).decode(), "do": "ATTACH",
                           "media": "text/plain", "name": name, "party": actor}, reply, **members)

    def ask(self, at, named=1, **members):
        return self.event({"ask": True, "at": at, "bill": named}, "DONE", **members)

    def start(self, at, body, reply, sent=(), **members):
        """A start from outside."""
        text = body if isinstance(body, str) else model.canon(body)
        return self.event({"at": at, "body": text, "foreign": "START"}, reply, sent, **members)

    def hear(self, at, kind, text, reply, sent=(), bill=1, **members):
        """A reply from outside."""
        return self.event({"at": at, "bill": bill, "foreign": kind, "text": text}, reply, sent, **members)

    def show(self, number, **members):
        return self.event({"show": number}, "SHOWN", **members)

    def names(self, number, by, last=None, missing=(), bill=BILL):
        """A signed answer is shown: by whom it is signed, and what it names."""
        text = base64.b64decode(self.show(number, **{"from": by})["bytes"]).decode()
        signer, response = model.verified(text, model.MOST_RESPONSE)
        found = {"by": signer, **{it: response.get(it) for it in ("bill", "last", "missing")}}
        assert found == {"by": by, "bill": bill, "last": last, "missing": list(missing)}, (self.name, found)

    def brings(self, number, transactions, **members):
        """A start is shown: how many transactions its last entry has, and what else that says."""
        body = json.loads(base64.b64decode(self.show(number, kind="START")["bytes"]))
        entry = model.verified(body["chain"][-1])[1]
        assert len(entry["transactions"]) == transactions, (self.name, entry)
        assert {name: entry.get(name) for name in members} == members, (self.name, entry)

    def sent(self, number):
        """The text of a message that was sent."""
        return self.world.sent[number - 1]["data"].decode()

    def entry(self, number):
        """The name of the entry that a start brings: the checksum of its text."""
        return model.checksum(json.loads(self.sent(number))["chain"][-1].encode())

    def reference(self, number):
        """The reference of the upload that a start begins: the bill's first byte, and the entry's without its first."""
        return model.reference_text(BILL[:2] + self.entry(number)[2:32])


AT_BETA = {"acts": ["BETA"], "end": "BETA", "entries": 1, "forked": False, "holder": IMPORT, "possessor": IMPORT,
           "state": "LIVE"}
NEW = {"acts": ["ALPH"], "end": "ALPH", "entries": 0, "forked": False}


def further(number):
    """Another document of the carrier."""
    return dict(DOCUMENT, transportDocumentReference="OCNL%07d" % number)


# ---- a bill goes from platform to platform

def transfer_to_another_platform():
    script = Script("transfer_to_another_platform")
    script.move()
    script.write(AT_BETA)


def repeated_delivery():
    script = Script("repeated_delivery")
    script.begin()
    script.deliver(1, "RECE", [2], standing=False)
    script.deliver(1, "DUPE", [3], standing=False)
    script.deliver(1, "DUPE", [4], standing=False)
    for number in (2, 3, 4):
        script.names(number, "BETA", script.entry(1))
    script.write(AT_BETA)


def restart_while_parting():
    script = Script("restart_while_parting")
    script.begin()
    script.deliver(1, "RECE", [2])
    script.event({"restart": "ALPH"}, "OPENED")
    script.act("ALPH", "TRANSFER", EXPORT, IMPORT, now=4000, answer="NOT_HERE", place="PARTING")
    script.event({"at": "ALPH", "bill": 1, "resend": True}, "DONE", [3], place="PARTING")
    script.deliver(3, "DUPE", [4])
    script.deliver(4, "DONE", place="GONE")
    script.event({"at": "ALPH", "bill": 1, "resend": True}, "NOT_PARTING", place="GONE")
    assert script.show(1)["bytes"] == script.show(3)["bytes"]
    script.write(AT_BETA)


def uploads(name, is_restarted):
    script = Script(name)
    script.issue()
    script.attach(b"abc", "A")
    script.attach(b"{}", "B")
    script.endorse()
    script.part()
    reference = script.reference(1)
    script.deliver(1, "STARTED", [2], missing=[ABC, EMPTY], reference=reference)
    script.deliver(2, "DONE", [3, 4, 5], place="PARTING")
    script.deliver(5, "MDOC", [6], missing=[ABC, EMPTY], standing=False)
    script.deliver(3, "STORED")
    script.deliver(5, "MDOC", [7], missing=[EMPTY], standing=False)
    script.event({"at": "BETA", "bytes": "YWJj", "checksum": EMPTY, "foreign": "PUT", "reference": reference},
                 "INCD", [8], reason="BYTES", standing=False)
    if is_restarted:
        script.event({"restart": "BETA"}, "OPENED")
    script.deliver(4, "STORED")
    script.deliver(5, "RECE", [9], standing=False)
    script.deliver(7, "IGNORED", reason="PASSING")
    script.deliver(9, "DONE", place="GONE", entries=1)
    for number, missing in ((6, [ABC, EMPTY]), (7, [EMPTY]), (8, []), (9, [])):
        script.names(number, "BETA", script.entry(1), missing)
    script.write(AT_BETA)


def uploaded_documents():
    uploads("uploaded_documents", False)


def start_delivered_twice():
    script = Script("start_delivered_twice")
    script.issue()
    script.attach(b"abc", "A")
    script.attach(b"{}", "B")
    script.endorse()
    script.part()
    reference = script.reference(1)
    for sent in (2, 3):
        script.deliver(1, "STARTED", [sent], missing=[ABC, EMPTY], reference=reference)
    assert script.show(2)["bytes"] == script.show(3)["bytes"]
    script.write({"acts": [], "end": "ALPH", "entries": 0, "forked": False, "holder": IMPORT})


def restart_between_uploads():
    uploads("restart_between_uploads", True)


def unknown_receiver():
    script = Script("unknown_receiver")
    script.regain()
    script.act("ALPH", "TRANSFER", EXPORT, AGENT, sent=[3], place="PARTING")
    script.deliver(2, "IGNORED", reason="SIGNATURE")
    script.deliver(3, "RECE", [4])
    script.deliver(1, "BENV", [5], reason="PARTY", standing=True)
    script.deliver(4, "DONE", place="GONE", entries=1)
    for number in (2, 5):
        script.names(number, "BETA", script.entry(1))
    script.write({"acts": ["GAMM"], "end": "GAMM", "entries": 1, "holder": EXPORT, "possessor": AGENT})


def answer_about_another_entry():
    """The bill goes to the platform that declined its last entry: the answer to that one ends nothing."""
    script = Script("answer_about_another_entry")
    script.regain()
    script.act("ALPH", "TRANSFER", EXPORT, IMPORT, sent=[3], place="PARTING")
    script.deliver(2, "IGNORED", reason="OTHER_ENTRY")
    script.deliver(3, "RECE", [4])
    script.deliver(4, "DONE", place="GONE", entries=1)
    for number, attempt in ((1, 1), (3, 2)):
        script.brings(number, 3, platform="ALPH", bill=BILL, previous=None, attempt=attempt)
    script.write({"acts": ["BETA"], "end": "BETA", "entries": 1, "holder": EXPORT, "possessor": IMPORT})


def return_before_the_answer():
    script = Script("return_before_the_answer")
    script.begin()
    script.deliver(1, "RECE", [2])
    script.act("BETA", "TRANSFER", IMPORT, EXPORT, sent=[3], place="PARTING", entries=1)
    script.deliver(3, "RECE", [4])
    script.deliver(2, "IGNORED", reason="NOT_PARTING")
    script.deliver(4, "DONE", place="GONE", entries=2)
    script.brings(3, 1, platform="BETA", bill=BILL, previous=script.entry(1), attempt=1)
    script.write({"acts": ["ALPH"], "end": "ALPH", "entries": 2, "holder": IMPORT, "possessor": EXPORT})


def to_another_platform():
    """What is delivered elsewhere than where it is for does no harm."""
    script = Script("to_another_platform")
    script.begin()
    script.deliver(1, "BENV", [2], at="GAMM", reason="DESTINATION", standing=False)
    script.deliver(2, "IGNORED", reason="SIGNATURE")
    script.deliver(1, "RECE", [3])
    script.deliver(3, "IGNORED", at="GAMM", reason="NOT_PARTING")
    script.deliver(1, "BENV", [4], at="ALPH", reason="DESTINATION", standing=False)
    script.deliver(3, "DONE", place="GONE")
    for at, place in (("ALPH", "GONE"), ("BETA", "HELD"), ("GAMM", "ABSENT")):
        script.ask(at, place=place)
    for number, by in ((2, "GAMM"), (3, "BETA"), (4, "ALPH")):
        script.names(number, by, script.entry(1))
    script.write(AT_BETA)


def surrender():
    script = Script("surrender")
    script.move()
    script.act("BETA", "SURRENDER_FOR_DELIVERY", IMPORT, sent=[3], possessor=CARRIER, holder=IMPORT, state="ASKED")
    script.deliver(3, "RECE", [4])
    script.deliver(4, "DONE", place="GONE", entries=2)
    script.ask("ALPH", place="HELD", entries=2, state="ASKED", possessor=CARRIER, holder=IMPORT)
    script.act("ALPH", "SURRENDER_REFUSED", CARRIER, sent=[5], possessor=IMPORT, state="LIVE")
    script.deliver(5, "RECE", [6])
    script.deliver(6, "DONE", place="GONE", entries=3)
    script.ask("BETA", place="HELD", entries=3, state="LIVE", possessor=IMPORT, holder=IMPORT)
    script.act("BETA", "SURRENDER_FOR_DELIVERY", IMPORT, sent=[7], state="ASKED")
    script.deliver(7, "RECE", [8])
    script.deliver(8, "DONE", place="GONE", entries=4)
    script.act("ALPH", "SURRENDER_ACCEPTED", CARRIER, place="HELD", entries=4, state="ENDED")
    script.act("ALPH", "ENDORSE", EXPORT, BANK, answer="NOT_ALLOWED", rule="F3")
    script.write({"acts": [], "end": "ALPH", "entries": 4, "holder": CARRIER, "possessor": CARRIER, "state": "ENDED"})


def two_bills_of_two_carriers():
    """Bills are numbered as they are signed, wherever; before it is signed here a bill has a name alone."""
    roster = dict(THREE_PLATFORMS, carriers=CARRIERS + [{"code": "BOAT", "party": IMPORT, "provider": "SMDG"}])
    script = Script("two_bills_of_two_carriers", roster)
    other = dict(DOCUMENT, carrierCode="BOAT", carrierCodeListProvider="SMDG")
    name = model.bill_of(other)
    script.ask("BETA", name, bill=name, place="ABSENT")
    script.issue()
    script.event({"at": "BETA", "do": "SIGN", "document": other, "party": IMPORT}, "DONE", bill=2, holder=IMPORT)
    script.ask("BETA", name, bill=2, place="HELD")
    script.act("BETA", "ISSUE", IMPORT, AGENT, number=2, bill=2, sent=[1], place="PARTING")
    script.act("ALPH", "TRANSFER", EXPORT, AGENT, sent=[2], place="PARTING")
    script.deliver(2, "RECE", [3])
    script.deliver(1, "RECE", [4])
    script.deliver(3, "DONE", bill=1, place="GONE")
    script.deliver(4, "DONE", bill=2, place="GONE")
    at_gamm = {"acts": ["GAMM"], "end": "GAMM", "entries": 1, "possessor": AGENT}
    script.write(at_gamm, at_gamm)


def in_shard_of(document, count):
    """Further documents whose bills are in the same shard as a document's."""
    shard = int(model.bill_of(document)[:2], 16) % model.SHARDS
    for other in map(further, itertools.count(2)):
        if int(model.bill_of(other)[:2], 16) % model.SHARDS == shard:
            yield other
            count -= 1
            if not count:
                return


def bills_of_one_shard():
    """Three bills of one shard, whose records are mixed: one is received elsewhere, one stays, one is on its way."""
    script = Script("bills_of_one_shard")
    script.issue()
    for number, document in enumerate(in_shard_of(DOCUMENT, 2), 2):
        script.sign(document, bill=number)
    for number in (3, 2):
        script.act("ALPH", "ISSUE", CARRIER, EXPORT, number=number, bill=number, state="LIVE")
    script.act("ALPH", "TRANSFER", EXPORT, IMPORT, sent=[1], place="PARTING")
    script.act("ALPH", "ENDORSE", EXPORT, BANK, number=2, holder=BANK)
    script.act("ALPH", "TRANSFER", EXPORT, AGENT, number=3, sent=[2], place="PARTING")
    script.deliver(1, "RECE", [3])
    script.act("ALPH", "TRANSFER", EXPORT, BANK, number=2, possessor=BANK)
    script.deliver(3, "DONE", bill=1, place="GONE")
    script.write({"acts": ["BETA"], "end": "BETA", "entries": 1, "possessor": IMPORT},
                 {"acts": ["ALPH"], "end": "ALPH", "entries": 0, "possessor": BANK},
                 {"acts": [], "end": "ALPH", "entries": 0, "possessor": EXPORT})


# ---- bodies from outside

SIGN = {"actor": CARRIER, "kind": "SIGN", "time": 0}
ISSUE = {"actor": CARRIER, "kind": "ISSUE", "recipient": EXPORT, "time": 0}


def transfer(actor, recipient):
    return {"actor": actor, "kind": "TRANSFER", "recipient": recipient, "time": 0}


def entry_of(platform, transactions, previous=None, **changed):
    """An entry's value; it names the text before it."""
    entry = {"attempt": 1, "bill": BILL, "platform": platform, "transactions": transactions, **changed}
    if previous is not None:
        entry["previous"] = model.checksum(previous.encode())
    return entry


def body_of(texts, signer=None, document=None, **changed):
    """A body of these signed entries, with a manifest of no documents by the last one's platform."""
    manifest = {"bill": BILL, "documents": [], "last": model.checksum(texts[-1].encode()), **changed}
    signer = signer or model.verified(texts[-1])[0]
    return {"chain": list(texts), "document": document or DOCUMENT, "manifest": model.sign(manifest, signer)}


FIRST = model.sign(entry_of("ALPH", [SIGN, ISSUE, transfer(EXPORT, IMPORT)]), "ALPH")
SECOND = model.sign(entry_of("BETA", [transfer(IMPORT, EXPORT)], FIRST), "BETA")
THIRD_ENTRY = entry_of("ALPH", [transfer(EXPORT, IMPORT)], SECOND)
THIRD = model.sign(THIRD_ENTRY, "ALPH")


def chain_without_its_middle():
    script = Script("chain_without_its_middle")
    script.start("BETA", body_of([FIRST, THIRD]), "BENV", [1], reason="LINK", index=1, standing=False)
    forged = model.sign(THIRD_ENTRY, "ALPH", model.key_of("BETA"))
    script.start("BETA", body_of([FIRST, SECOND, forged], "ALPH"), "BSIG", [2], reason="SIGNATURE", index=2)
    script.start("BETA", body_of([FIRST, SECOND, THIRD]), "RECE", [3])
    script.ask("BETA", BILL, bill=BILL, place="HELD", entries=3, possessor=IMPORT)
    script.write()


def parted_chains():
    """The premise that nobody forges is broken on purpose: the test signer's keys are no secret."""
    script = Script("parted_chains")
    script.move()
    held = json.loads(script.sent(1))["chain"][0]
    forged = model.sign(entry_of("ALPH", [SIGN, ISSUE, transfer(EXPORT, BANK), transfer(BANK, IMPORT)]), "ALPH")
    body = body_of([forged])
    script.start("BETA", body, "DISE", [3], reason="PARTS", standing=True, own=held, theirs=forged)
    script.start("BETA", body, "DISE", [4], reason="PARTS", standing=True, own=held, theirs=forged)
    for number in (3, 4):
        script.names(number, "BETA", model.checksum(forged.encode()))
    script.write(AT_BETA)


def route(bill, length, other=0, front=(), **changed):
    """So many texts of a bill that goes from ALPH to BETA and back, behind those in front: the one of this number is
    another attempt, and the last one is changed."""
    texts = list(front)
    for number in range(len(texts) + 1, length + 1):
        transactions = [transfer(EXPORT, IMPORT) if number % 2 else transfer(IMPORT, EXPORT)]
        entry = entry_of("ALPH" if number % 2 else "BETA", [SIGN, ISSUE] * (number == 1) + transactions,
                         texts[-1] if texts else None, bill=bill, attempt=9 if number == other else 1)
        entry.update(changed if number == length else {})
        texts.append(model.sign(entry, entry["platform"]))
    return texts


# Where a bill is, after so many entries there; the chain that is shown then, by its length and the number of the entry
# that is another one; and what it meets: it is received, or it parts at the own entry and at theirs of these numbers.
AT_BETA_SHOWN = (
    ("HELD", 1, (1, 1), (1, 1)), ("HELD", 1, (3, 0), (1, 2)), ("HELD", 3, (1, 0), (2, 1)), ("HELD", 3, (1, 1), (1, 1)),
    ("HELD", 3, (3, 1), (1, 1)), ("HELD", 3, (3, 2), (2, 2)), ("HELD", 3, (3, 3), (3, 3)), ("HELD", 3, (5, 0), (3, 4)),
    ("PARTING", 1, (3, 0), "RECE"), ("PARTING", 1, (3, 2), (2, 2)), ("PARTING", 1, (3, 1), (1, 1)),
    ("PARTING", 1, (1, 1), (1, 1)), ("PARTING", 3, (1, 1), (1, 1)), ("PARTING", 3, (5, 0), "RECE"),
    ("GONE", 1, (3, 0), "RECE"), ("GONE", 1, (3, 2), (2, 2)), ("GONE", 1, (3, 1), (1, 1)), ("GONE", 1, (1, 1), (1, 1)),
    ("GONE", 3, (5, 0), "RECE"), ("GONE", 3, (5, 4), (4, 4)))
AT_ALPH_SHOWN = (
    ("HELD", 0, (2, 0), (0, 1)), ("HELD", 2, (4, 0), (2, 3)), ("HELD", 2, (2, 2), (2, 2)), ("HELD", 2, (2, 1), (1, 1)),
    ("PARTING", 0, (2, 0), "RECE"), ("PARTING", 0, (4, 0), "RECE"), ("PARTING", 0, (2, 1), (1, 1)),
    ("PARTING", 2, (4, 0), "RECE"), ("PARTING", 2, (4, 3), (3, 3)), ("PARTING", 2, (4, 2), (2, 2)),
    ("PARTING", 2, (2, 2), (2, 2)),
    ("GONE", 0, (2, 0), "RECE"), ("GONE", 0, (4, 0), "RECE"), ("GONE", 0, (2, 1), (1, 1)), ("GONE", 2, (4, 0), "RECE"),
    ("GONE", 2, (4, 3), (3, 3)), ("GONE", 2, (4, 2), (2, 2)), ("GONE", 2, (2, 2), (2, 2)))


TO_NOBODY = [SIGN, ISSUE, transfer(EXPORT, "BETA/NOBODY")]


class Meeting:
    """A bill that is brought somewhere by starts from outside, to see what another start meets there."""

    def __init__(self, script, number):
        self.script, self.document = script, further(number)
        self.bill = model.bill_of(self.document)

    def start(self, at, texts, reply, **members):
        body = body_of(texts, document=self.document, bill=self.bill)
        self.script.start(at, body, reply, [len(self.script.world.sent) + 1], **members)

    def leave(self, at, actor, recipient):
        """The bill leaves a platform: the text of the entry."""
        number = len(self.script.world.sent) + 1
        self.script.act(at, "TRANSFER", actor, recipient, number=self.bill, sent=[number], place="PARTING")
        return json.loads(self.script.sent(number))["chain"][-1]

    def hear(self, at, by, text, code, **members):
        response = {"last": model.checksum(text.encode()), "missing": [], "responseCode": code, "standing": False}
        self.script.hear(at, "FINISH_REPLY", model.sign({**response, **members}, by), "DONE", bill=self.bill)

    def bring(self, at, place, entries):
        """Brings the bill where it is to be after so many entries; the texts that are known then, a parting one too."""
        party, other, by = (IMPORT, EXPORT, "ALPH") if at == "BETA" else (EXPORT, IMPORT, "BETA")
        texts = []
        if at == "ALPH":
            self.script.sign(self.document)
            self.script.event({"at": at, "bill": self.bill, "do": "ISSUE", "party": CARRIER, "recipient": EXPORT}, "DONE")
            texts = [self.leave(at, party, other)] if entries or place != "HELD" else []
        if entries:
            texts = route(self.bill, entries, front=texts)
            self.start(at, texts, "RECE")
        if place != "HELD" and (entries or at == "BETA"):
            texts.append(self.leave(at, party, other))
        if place == "GONE":
            self.hear(at, by, texts[-1], "RECE")
        return texts

    def shown(self, texts, length, other):
        """The chain that is shown: the texts that are known, up to the one in whose place there is another one."""
        return route(self.bill, length, other, texts[:other - 1 if other else length])


class Meetings:
    """The bills of a script, each brought somewhere."""

    def __init__(self, name):
        self.script, self.numbers = Script(name), itertools.count(1)

    def new(self):
        return Meeting(self.script, next(self.numbers))

    def brought(self, at, place, entries):
        meeting = self.new()
        return meeting, meeting.bring(at, place, entries)


def chains_that_meet():
    """What a chain meets where a bill is held, parting or gone: it goes on from there, or it parts, and where."""
    meetings = Meetings("chains_that_meet")
    for at, rows in (("BETA", AT_BETA_SHOWN), ("ALPH", AT_ALPH_SHOWN)):
        for place, entries, (length, other), wanted in rows:
            meeting, texts = meetings.brought(at, place, entries)
            shown = meeting.shown(texts, length, other)
            if wanted == "RECE":
                meeting.start(at, shown, "RECE", standing=False)
                meeting.start(at, shown, "DUPE", standing=False)
                continue
            own = texts[wanted[0] - 1] if wanted[0] else None
            for _ in range(2):
                meeting.start(at, shown, "DISE", reason="PARTS", standing=True, own=own, theirs=shown[wanted[1] - 1])
    meetings.script.write_all()


def elsewhere_and_received(meetings):
    """A chain that ends elsewhere, whatever is known; what was received, though the bill left since."""
    meeting, texts = meetings.brought("BETA", "PARTING", 1)
    for shown in (texts, route(meeting.bill, 2, 1)):
        meeting.start("BETA", shown, "BENV", reason="DESTINATION", standing=False)
    meeting.start("BETA", texts[:1], "DUPE", standing=False)
    meeting.hear("BETA", "ALPH", texts[-1], "RECE")
    meeting.start("BETA", texts[:1], "DUPE", standing=False)


def declined_and_disputed(meetings):
    """What was declined, with the texts of that time; a dispute before a party that isn't known."""
    meeting, texts = meetings.brought("BETA", "HELD", 1)
    other = route(meeting.bill, 1, 1)
    dispute = {"reason": "PARTS", "standing": True, "own": texts[0]}
    meeting.start("BETA", other, "DISE", **dispute, theirs=other[0])
    meeting.leave("BETA", IMPORT, EXPORT)
    meeting.start("BETA", other, "DISE", **dispute, theirs=other[0])
    stranger = route(meeting.bill, 1, transactions=TO_NOBODY)
    meeting.start("BETA", stranger, "DISE", **dispute, theirs=stranger[0])


def unknown_parties(meetings):
    """A party that isn't known before missing documents; and where a bill comes back."""
    meeting, script = meetings.new(), meetings.script
    documents = [{"checksum": ABC, "media": "text/plain", "name": "A", "size": 3}]
    body = body_of(route(meeting.bill, 1, transactions=TO_NOBODY), document=meeting.document, bill=meeting.bill,
                   documents=documents)
    for _ in range(2):
        script.start("BETA", body, "BENV", [len(script.world.sent) + 1], reason="PARTY", standing=True)
    for at, entries in (("BETA", 1), ("ALPH", 0)):
        for place in ("PARTING", "GONE"):
            meeting, texts = meetings.brought(at, place, entries)
            last = [transfer(EXPORT, "BETA/NOBODY") if at == "BETA" else transfer(IMPORT, "ALPH/NOBODY")]
            shown = route(meeting.bill, len(texts) + 1, front=texts, transactions=last)
            meeting.start(at, shown, "BENV", reason="PARTY", standing=True)


def sent_by_another_entry(meetings):
    """The bill goes out by another entry than the one that was declined: a chain through that one parts."""
    meeting, texts = meetings.brought("ALPH", "PARTING", 0)
    meeting.hear("ALPH", "BETA", texts[0], "BENV", reason="PARTY", standing=True)
    again = meeting.leave("ALPH", EXPORT, IMPORT)
    meeting.start("ALPH", route(meeting.bill, 2, front=texts), "DISE", reason="PARTS", standing=True, own=again,
                  theirs=texts[0])
    meeting.start("ALPH", route(meeting.bill, 2, front=[again]), "RECE", standing=False)


def first_judgement():
    """Of several things that a start may meet, the first in the order of docs/machine.md is answered."""
    meetings = Meetings("first_judgement")
    for part in (elsewhere_and_received, declined_and_disputed, unknown_parties, sent_by_another_entry):
        part(meetings)
    meetings.script.write_all()


def dispute_at_the_finish():
    """While a platform waits for documents the bill comes to it by another chain: the finish meets a dispute."""
    script = Script("dispute_at_the_finish")
    script.issue()
    script.attach(b"abc", "A")
    script.endorse()
    script.part()
    reference = script.reference(1)
    script.deliver(1, "STARTED", [2], missing=[ABC], reference=reference)
    script.deliver(2, "DONE", [3, 4], place="PARTING")
    script.start("BETA", body_of([FIRST]), "RECE", [5])
    theirs = json.loads(script.sent(1))["chain"][0]
    for sent in (6, 7):
        script.deliver(4, "DISE", [sent], reason="PARTS", standing=True, own=FIRST, theirs=theirs)
        script.names(sent, "BETA", script.entry(1))
    script.deliver(3, "STORED")
    script.deliver(4, "DISE", [8], reason="PARTS", standing=True, own=FIRST, theirs=theirs)
    script.write({"acts": ["BETA"], "end": "BETA", "entries": 1, "forked": False})


def texts_of_disputes():
    """The texts of a dispute where one chain is a part of the other, where the own one is empty, and while parting."""
    script = Script("texts_of_disputes")

    def disputed(number, at, texts, **parts):
        absent = {name: None for name in ("own", "theirs") if name not in parts}
        script.start(at, body_of(texts), "DISE", [number], reason="PARTS", standing=True, **parts, **absent)

    script.issue()
    disputed(1, "ALPH", [FIRST, SECOND], theirs=FIRST)
    script.start("BETA", body_of([FIRST, SECOND, THIRD]), "RECE", [2])
    disputed(3, "BETA", [FIRST], own=SECOND, theirs=FIRST)
    fourth = model.sign(entry_of("BETA", [transfer(IMPORT, AGENT)], THIRD), "BETA")
    fifth = model.sign(entry_of("GAMM", [transfer(AGENT, IMPORT)], fourth), "GAMM")
    disputed(4, "BETA", [FIRST, SECOND, THIRD, fourth, fifth], own=THIRD, theirs=fourth)
    script.act("BETA", "TRANSFER", IMPORT, AGENT, sent=[5], place="PARTING", entries=3)
    parting = json.loads(script.sent(5))["chain"][3]
    other = model.sign(entry_of("BETA", [transfer(IMPORT, EXPORT)], THIRD), "BETA")
    back = model.sign(entry_of("ALPH", [transfer(EXPORT, IMPORT)], other), "ALPH")
    disputed(6, "BETA", [FIRST, SECOND, THIRD, other, back], own=parting, theirs=other)
    script.write({"acts": ["ALPH"], "end": "BETA", "entries": 3, "forked": False})


def forked_chains():
    """A forged chain that reaches a platform which doesn't know the bill is accepted there: the bill line tells."""
    script = Script("forked_chains")
    script.move()
    forged = model.sign(entry_of("ALPH", [SIGN, ISSUE, transfer(EXPORT, AGENT)]), "ALPH")
    script.start("GAMM", body_of([forged]), "RECE", [3])
    script.write(dict(AT_BETA, acts=["BETA", "GAMM"], forked=True))


def two_continuations():
    """With the key of the platform that holds a bill, two continuations of its chain: three platforms may act."""
    script = Script("two_continuations")
    script.move()
    held = json.loads(script.sent(1))["chain"][0]
    for number, at, to in ((3, "GAMM", AGENT), (4, "ALPH", EXPORT)):
        forged = model.sign(entry_of("BETA", [transfer(IMPORT, to)], held), "BETA")
        script.start(at, body_of([held, forged]), "RECE", [number])
        script.ask(at, place="HELD", entries=2, state="LIVE", possessor=to, holder=IMPORT)
    script.ask("BETA", place="HELD", entries=1, state="LIVE", possessor=IMPORT, holder=IMPORT)
    script.write({"acts": ["ALPH", "BETA", "GAMM"], "end": "ALPH", "entries": 2, "forked": True})


def refused_bodies():
    """A body for each thing that can be wrong with it, in the order in which they are looked for, and then for each
    thing that can be wrong with a second entry. What the sealed answer names is what could be read."""
    script = Script("refused_bodies")
    number = 0

    def refused(body, code, reason, index=None, bill=BILL):
        nonlocal number
        number += 1
        script.start("BETA", body, code, [number], reason=reason, index=index, standing=False)
        chain = [] if reason == "BODY" else body["chain"]
        script.names(number, "BETA", model.checksum(chain[-1].encode()) if chain else None, bill=bill)

    good = body_of([FIRST])
    for body in ("", "[]", {"chain": [], "document": DOCUMENT}, dict(good, document=1), dict(good, chain=[1])):
        refused(body, "BENV", "BODY", bill=None)
    for changed in ({"document": {}}, {"document": dict(DOCUMENT, transportDocumentTypeCode="SWB")},
                    {"document": {}, "chain": []}):
        refused(dict(good, **changed), "BENV", "DOCUMENT", bill=None)
    refused(dict(good, chain=[]), "BENV", "LENGTH")
    refused(dict(good, chain=[FIRST] * 65), "BENV", "LENGTH")
    refused(dict(good, chain=["a.b"]), "BSIG", "SIGNATURE", 0)
    refused(dict(good, chain=[FIRST[:-1] + "!"]), "BSIG", "SIGNATURE", 0)
    refused(body_of([model.sign({"attempt": 0}, "ALPH")]), "BENV", "ENTRY", 0)
    refused(body_of([model.sign(entry_of("ALPH", [SIGN]), "BETA")]), "BSIG", "SIGNER", 0)
    refused(body_of([FIRST, THIRD]), "BENV", "LINK", 1)
    refused(body_of([SECOND]), "BENV", "LINK", 0)
    refused(body_of([model.sign(entry_of("ALPH", [SIGN], bill=ABC), "ALPH")]), "BENV", "BILL", 0)
    refused(body_of([model.sign(entry_of("ALPH", [dict(SIGN, actor=EXPORT)]), "ALPH")]), "BENV", "CARRIER")
    refused(body_of([model.sign(entry_of("BETA", [SIGN]), "BETA")]), "BENV", "PLATFORM", 0)
    elsewhere = model.sign(entry_of("GAMM", [transfer(IMPORT, AGENT)], FIRST), "GAMM")
    refused(body_of([FIRST, elsewhere]), "BENV", "PLATFORM", 1)
    refused(body_of([model.sign(entry_of("ALPH", [SIGN, transfer(EXPORT, IMPORT)]), "ALPH")]), "BENV", "FOLD", 0)
    refused(body_of([model.sign(entry_of("ALPH", [SIGN, ISSUE]), "ALPH")]), "BENV", "MOVE", 0)
    moved = [SIGN, ISSUE, transfer(EXPORT, IMPORT), transfer(IMPORT, EXPORT)]
    refused(body_of([model.sign(entry_of("ALPH", moved), "ALPH")]), "BENV", "MOVE", 0)
    refused(body_of([FIRST], "BETA"), "BSIG", "MANIFEST_SIGNATURE")
    refused(dict(good, manifest="a.b.c"), "BSIG", "MANIFEST_SIGNATURE")
    refused(body_of([FIRST], documents={}), "BENV", "MANIFEST_FORM")
    refused(body_of([FIRST], last=ABC), "BENV", "MANIFEST_NAMES")
    refused(body_of([FIRST], bill=ABC), "BENV", "MANIFEST_NAMES")
    refused(body_of([model.sign(entry_of("ALPH", [SIGN, ISSUE, transfer(EXPORT, AGENT)]), "ALPH")]),
            "BENV", "DESTINATION")
    back = transfer(IMPORT, EXPORT)
    for text, code, reason in (
            ("x", "BSIG", "SIGNATURE"),
            (model.sign({}, "BETA"), "BENV", "ENTRY"),
            (model.sign(entry_of("BETA", [back], FIRST), "ALPH"), "BSIG", "SIGNER"),
            (model.sign(entry_of("BETA", [back]), "BETA"), "BENV", "LINK"),
            (model.sign(entry_of("BETA", [back], FIRST, bill=ABC), "BETA"), "BENV", "BILL"),
            (model.sign(entry_of("GAMM", [back], FIRST), "GAMM"), "BENV", "PLATFORM"),
            (model.sign(entry_of("BETA", [transfer(EXPORT, AGENT)], FIRST), "BETA"), "BENV", "FOLD"),
            (model.sign(entry_of("BETA", [transfer(IMPORT, "BETA/NOBODY")], FIRST), "BETA"), "BENV", "MOVE")):
        refused(body_of([FIRST, text], "BETA"), code, reason, 1)
    script.ask("BETA", BILL, place="ABSENT")
    script.start("BETA", good, "RECE", [number + 1])
    script.start("BETA", dict(good, further=[]), "DUPE", [number + 2])
    script.write()


# ---- a table of forged and broken starts

# The signer of each entry of a good chain, and the entry without the name of the one before it.
GOOD_ENTRIES = (("ALPH", entry_of("ALPH", [SIGN, ISSUE, transfer(EXPORT, IMPORT)])),
                ("BETA", entry_of("BETA", [transfer(IMPORT, EXPORT)])),
                ("ALPH", entry_of("ALPH", [transfer(EXPORT, IMPORT)])))
GOOD_TEXTS = [FIRST, SECOND, THIRD]


def linked(entries):
    """The texts of entries, each signed and linked to the one before it."""
    texts = []
    for signer, entry in entries:
        previous = {"previous": model.checksum(texts[-1].encode())} if texts else {}
        texts.append(model.sign({**entry, **previous}, signer))
    return texts


def anew(place, signer=None, **changed):
    """A body of the good chain with one entry changed: that is signed again, those behind it are linked again, and the
    manifest is made again."""
    entries = list(GOOD_ENTRIES)
    old, entry = entries[place]
    entries[place] = (signer or old, {**entry, **changed})
    return body_of(linked(entries))


def without(members, name):
    return {it: value for it, value in members.items() if it != name}


def forged_signatures(text):
    """A text of the good chain that isn't rightly signed, in each of four ways."""
    signer, entry = model.verified(text)
    yield model.sign(entry, signer, model.key_of("GAMM"))
    yield text.replace(".", "", 1)
    yield model.signed_with_header({"alg": "HS256", "crit": ["b64"], "kid": signer}, entry, signer)
    yield text + "="


def broken_bodies(good):
    """(body, code, reason) of each body in which no chain of texts stands, or no document of a bill."""
    text = model.canon(good)
    for length in (0, 1, len(text) // 2, len(text) - 1):
        yield text[:length], "BODY"
    for name in good:
        yield without(good, name), "BODY"
    for name, value in (("document", []), ("manifest", 1), ("chain", [FIRST, 1, THIRD])):
        yield {**good, name: value}, "BODY"
    for name in DOCUMENT:
        yield {**good, "document": without(DOCUMENT, name)}, "DOCUMENT"
    for name, value in (("transportDocumentTypeCode", "SWB"), ("transportDocumentReference", "R" * 21)):
        yield {**good, "document": {**DOCUMENT, name: value}}, "DOCUMENT"
    for texts in ([], [FIRST] * 65):
        yield {**good, "chain": texts}, "LENGTH"


def forged_chains_of_three(good):
    """(body, code, reason, index) of each chain that is forged, or put together wrongly."""
    def of(*texts):
        return {**good, "chain": list(texts)}

    for place, text in enumerate(GOOD_TEXTS):
        for forged in forged_signatures(text):
            yield of(*GOOD_TEXTS[:place], forged, *GOOD_TEXTS[place + 1:]), "BSIG", "SIGNATURE", place
        yield anew(place, transactions=[]), "BENV", "ENTRY", place
        yield anew(place, attempt=0), "BENV", "ENTRY", place
        yield anew(place, platform="GAMM"), "BSIG", "SIGNER", place
    yield of(FIRST, THIRD), "BENV", "LINK", 1
    yield of(SECOND, THIRD), "BENV", "LINK", 0
    yield of(SECOND, FIRST, THIRD), "BENV", "LINK", 0
    yield of(*GOOD_TEXTS, THIRD), "BENV", "LINK", 3
    for place in (0, 2):
        yield anew(place, bill=ABC), "BENV", "BILL", place
    parted = transfer(EXPORT, IMPORT)
    yield anew(0, transactions=[dict(SIGN, actor=EXPORT), ISSUE, parted]), "BENV", "CARRIER", None
    yield anew(1, "GAMM", platform="GAMM"), "BENV", "PLATFORM", 1
    yield anew(0, "BETA", platform="BETA"), "BENV", "PLATFORM", 0
    yield anew(1, transactions=[transfer("BETA/AGENT", EXPORT)]), "BENV", "FOLD", 1
    yield anew(2, transactions=[ISSUE]), "BENV", "FOLD", 2
    yield anew(0, transactions=[SIGN, ISSUE]), "BENV", "MOVE", 0
    yield anew(2, transactions=[parted, transfer(IMPORT, EXPORT)]), "BENV", "MOVE", 2


def forged_manifests():
    """(manifest's text, code, reason) of each manifest that doesn't go with the good chain."""
    manifest = {"bill": BILL, "documents": [], "last": model.checksum(THIRD.encode())}
    yield model.sign(manifest, "ALPH", model.key_of("BETA")), "BSIG", "MANIFEST_SIGNATURE"
    yield model.sign(without(manifest, "documents"), "ALPH"), "BENV", "MANIFEST_FORM"
    yield model.sign({**manifest, "last": model.checksum(SECOND.encode())}, "ALPH"), "BENV", "MANIFEST_NAMES"


def forged_starts():
    """Broken and forged starts at platforms that know nothing of the bill. None but the last two leaves a record, so
    each of the others meets empty diaries. The one that is too long to be stored is in tools/check_program.py."""
    script = Script("forged_starts")
    good = body_of(GOOD_TEXTS)
    assert linked(GOOD_ENTRIES) == GOOD_TEXTS

    def refused(body, code, reason, index=None, at="BETA", **members):
        number = len(script.world.sent) + 1
        script.start(at, body, code, [number], reason=reason, index=index, **{"standing": False, **members})

    for body, reason in broken_bodies(good):
        refused(body, "BENV", reason)
    for body, code, reason, index in forged_chains_of_three(good):
        refused(body, code, reason, index)
    for manifest, code, reason in forged_manifests():
        refused({**good, "manifest": manifest}, code, reason)
    refused(good, "BENV", "DESTINATION", at="GAMM")
    for at in ("BETA", "GAMM"):
        script.ask(at, BILL, place="ABSENT")
    refused(anew(2, transactions=[transfer(EXPORT, "BETA/NOBODY")]), "BENV", "PARTY", standing=True)
    number = len(script.world.sent) + 1
    script.start("BETA", good, "RECE", [number], standing=False)
    assert number == 59, number
    script.ask("BETA", BILL, place="HELD", entries=3, possessor=IMPORT)
    script.write()


def ignored_replies():
    """A reply from outside for each reason to ignore it; the reply that counts comes last."""
    script = Script("ignored_replies")

    def ignored(reason, kind, text):
        script.hear("ALPH", kind, text, "IGNORED", reason=reason)

    script.issue()
    ignored("NOT_PARTING", "START_REPLY", "{}")
    ignored("NOT_PARTING", "FINISH_REPLY", "")
    script.endorse()
    script.part()
    ignored("FORM", "START_REPLY", "{}")
    other = model.reference_text(model.reference_of(BILL, ABC))
    ignored("REFERENCE", "START_REPLY", model.canon({"missing": [ABC], "reference": other}))
    response = {"last": script.entry(1), "missing": [], "responseCode": "RECE", "standing": False}
    for kind in ("START_REPLY", "FINISH_REPLY"):
        ignored("SIGNATURE", kind, "")
        ignored("SIGNATURE", kind, model.sign(response, "GAMM"))
        ignored("SIGNATURE", kind, model.sign(response, "BETA", model.key_of("GAMM")))
        ignored("FORM", kind, model.sign(dict(response, responseCode="NONE"), "BETA"))
        ignored("FORM", kind, model.sign(dict(response, reason="PARTY"), "BETA"))
        ignored("FORM", kind, model.sign({}, "BETA"))
        ignored("OTHER_ENTRY", kind, model.sign(dict(response, last=ABC), "BETA"))
        of_no_entry = {name: it for name, it in response.items() if name != "last"}
        ignored("OTHER_ENTRY", kind, model.sign(of_no_entry, "BETA"))
        ignored("PASSING", kind, model.sign(dict(response, responseCode="MDOC", missing=[ABC]), "BETA"))
        ignored("PASSING", kind, model.sign(dict(response, responseCode="BENV", reason="BODY"), "BETA"))
    ignored("SIGNATURE", "FINISH_REPLY", "{}")
    for text in ("x", " {}"):
        ignored("SIGNATURE", "START_REPLY", text)
    script.hear("BETA", "FINISH_REPLY", model.sign(response, "BETA"), "IGNORED", reason="NOT_PARTING")
    started = {"missing": [ABC], "reference": script.reference(1).upper()}
    script.hear("ALPH", "START_REPLY", model.canon(started), "DONE", [2], place="PARTING")
    script.hear("ALPH", "FINISH_REPLY", model.sign(response, "BETA"), "DONE", place="GONE", entries=1)
    ignored("NOT_PARTING", "START_REPLY", "{}")
    ignored("NOT_PARTING", "FINISH_REPLY", "")
    script.write({"acts": [], "end": "ALPH", "entries": 0, "forked": False})


def foreign_uploads():
    """Bytes from outside for an upload; the replies are for nobody, so a script says where they go."""
    script = Script("foreign_uploads")
    script.issue()
    script.attach(b"abc", "A")
    script.endorse()
    script.part()
    reference = script.reference(1)

    def put(data, named, reply, sent=(), **members):
        script.event({"at": "BETA", "bytes": base64.b64encode(data).decode(), "checksum": named, "foreign": "PUT",
                      "reference": reference}, reply, sent, **members)

    put(b"abc", ABC, "UNKNOWN_REFERENCE")
    script.start("BETA", script.sent(1), "STARTED", [2], missing=[ABC], reference=reference)
    put(b"{}", EMPTY, "INCD", [3], reason="NOT_LISTED", standing=False)
    put(b"{}", ABC, "INCD", [4], reason="BYTES", standing=False)
    script.event({"at": "BETA", "foreign": "FINISH", "reference": reference}, "MDOC", [5], missing=[ABC])
    put(b"abc", ABC, "STORED")
    put(b"abc", ABC, "STORED")
    script.event({"at": "BETA", "foreign": "FINISH", "reference": "urn:uuid:" + reference.upper()}, "RECE", [6])
    script.event({"at": "BETA", "foreign": "FINISH", "reference": "{%s}" % reference}, "DUPE", [7])
    script.deliver(6, "NO_MESSAGE")
    script.deliver(6, "DONE", at="ALPH", place="GONE")
    script.show(6, **{"from": "BETA"}, kind="FINISH_REPLY", to=None)
    for number, missing in ((3, []), (4, []), (5, [ABC]), (6, []), (7, [])):
        script.names(number, "BETA", script.entry(1), missing)
    # of another bill of the same shard the same document is missing, and the order is the manifest's
    for other in in_shard_of(DOCUMENT, 1):
        bill = model.bill_of(other)
        documents = [{"checksum": it, "media": "text/plain", "name": "A", "size": size}
                     for it, size in ((EMPTY, 2), (ABC, 3))]
        body = body_of(route(bill, 1), document=other, bill=bill, documents=documents)
        script.start("BETA", body, "STARTED", [8], missing=[EMPTY, ABC])
    script.write(AT_BETA)


def asked_documents():
    """Documents are sent in the manifest's order, each once, whatever the order in which they are asked for."""
    script = Script("asked_documents")
    script.issue()
    for data in (b"abc", b"{}", b"1"):
        script.attach(data, "A")
    script.endorse()
    script.part()
    one = model.checksum(b"1")
    asked = {"further": 1, "missing": [one, model.checksum(b"2"), ABC, one], "reference": script.reference(1)}
    script.hear("ALPH", "START_REPLY", " " + model.canon(asked), "IGNORED", reason="SIGNATURE")
    script.hear("ALPH", "START_REPLY", model.canon(dict(asked, missing=[])), "IGNORED", reason="FORM")
    script.hear("ALPH", "START_REPLY", model.canon(dict(asked, missing=[ABC] * 17)), "IGNORED", reason="FORM")
    script.hear("ALPH", "START_REPLY", model.canon(asked), "DONE", [2, 3, 4], place="PARTING")
    for number, data in ((2, b"abc"), (3, b"1")):
        script.show(number, **{"from": "ALPH"}, to="BETA", kind="PUT", bytes=base64.b64encode(data).decode())
    script.show(4, **{"from": "ALPH"}, to="BETA", kind="FINISH", bytes="")
    script.write(dict(NEW, acts=[]))


# ---- refusals

def other_partys_platform():
    script = Script("other_partys_platform")
    script.sign()
    script.act("ALPH", "ISSUE", IMPORT, EXPORT, answer="NOT_OURS")
    script.write(NEW)


def no_bill_before_not_ours():
    script = Script("no_bill_before_not_ours")
    script.act("ALPH", "TRANSFER", IMPORT, EXPORT, answer="NO_BILL")
    script.write()


def not_the_carrier():
    script = Script("not_the_carrier")
    script.sign(party=EXPORT, answer="NOT_CARRIER")
    script.sign(dict(DOCUMENT, carrierCode="OCNM"), answer="NOT_CARRIER")
    script.sign(dict(DOCUMENT, carrierCodeListProvider="SMDG"), answer="NOT_CARRIER")
    script.write()


def documents_of_no_bill():
    """A document for each fault; the first member that is wrong is reported."""
    script = Script("documents_of_no_bill")
    wrong = {"transportDocumentReference": ("", "123456789012345678901", 1), "carrierCode": ("", "OCNLL", "ocnl", None),
             "carrierCodeListProvider": ("SCAC", 1), "transportDocumentTypeCode": ("AWB", 1),
             "isToOrder": ("true", 0, None)}
    for document in (1, None, [], "BOL"):
        script.sign(document, answer="DOCUMENT", fault="FORM", field="transportDocumentReference")
    for field, values in wrong.items():
        without = {name: it for name, it in DOCUMENT.items() if name != field}
        for document in [without] + [dict(DOCUMENT, **{field: value}) for value in values]:
            script.sign(document, answer="DOCUMENT", fault="FORM", field=field)
    script.sign(dict(DOCUMENT, transportDocumentTypeCode="SWB"), answer="DOCUMENT", fault="NOT_TITLE")
    script.sign({name: it for name, it in DOCUMENT.items() if name not in ("carrierCode", "isToOrder")},
                answer="DOCUMENT", fault="FORM", field="carrierCode")
    script.sign(dict(DOCUMENT, transportDocumentReference="\U0001f6a2" * 20), bill=1, place="HELD")
    script.write(NEW)


def nobody_here():
    script = Script("nobody_here")
    script.issue()
    script.act("ALPH", "TRANSFER", EXPORT, "ALPH/NOBODY", answer="NO_PARTY", party="ALPH/NOBODY")
    script.act("ALPH", "TRANSFER", EXPORT, "OMEG/NOBODY", answer="NO_PARTY", party="OMEG/NOBODY")
    script.act("ALPH", "SURRENDER_FOR_DELIVERY", EXPORT, "OMEG/NOBODY", answer="NO_PARTY", party="OMEG/NOBODY")
    script.write(NEW)


def asker_of_no_platform():
    """Who asked for a surrender is on a platform that the roster doesn't list, so it can't be refused."""
    script = Script("asker_of_no_platform")
    asker = "OMEG/ASKER"
    first = model.sign(entry_of("ALPH", [SIGN, dict(ISSUE, recipient=asker)]), "ALPH")
    surrender = {"actor": asker, "kind": "SURRENDER_FOR_DELIVERY", "time": 0}
    second = model.sign(entry_of("OMEG", [surrender], first), "OMEG")
    script.start("ALPH", body_of([first, second]), "RECE", [1])
    script.act("ALPH", "SURRENDER_REFUSED", CARRIER, number=BILL, answer="NO_PARTY", party=asker)
    script.act("ALPH", "SURRENDER_ACCEPTED", CARRIER, number=BILL, place="HELD", state="ENDED", entries=2)
    script.write()


def rules_of_titles():
    """A refusal by each rule that a script meets."""
    script = Script("rules_of_titles")

    def refused(rule, kind, party, recipient=None):
        script.act("ALPH", kind, party, recipient, answer="NOT_ALLOWED", rule=rule)

    script.sign()
    refused("F4", "TRANSFER", CARRIER, EXPORT)
    refused("F5", "ISSUE", CARRIER)
    refused("F6", "ISSUE", EXPORT, EXPORT)
    script.event({"at": "ALPH", "bill": 1, "do": "ISSUE", "party": CARRIER, "recipient": EXPORT}, "DONE")
    refused("F4", "ISSUE", CARRIER, EXPORT)
    refused("F5", "SURRENDER_FOR_DELIVERY", EXPORT, CARRIER)
    refused("F7", "TRANSFER", BANK, EXPORT)
    refused("F7", "ENDORSE", CARRIER, BANK)
    refused("F9", "TRANSFER", EXPORT, EXPORT)
    script.act("ALPH", "ENDORSE", EXPORT, BANK, holder=BANK)
    refused("F8", "ENDORSE", EXPORT, BANK)
    refused("F8", "SURRENDER_FOR_AMENDMENT", EXPORT)
    script.act("ALPH", "TRANSFER", EXPORT, BANK, possessor=BANK)
    refused("F9", "ENDORSE", BANK, BANK)
    refused("F4", "SURRENDER_ACCEPTED", CARRIER)
    script.act("ALPH", "SURRENDER_FOR_AMENDMENT", BANK, state="ASKED", holder=BANK, possessor=CARRIER)
    refused("F4", "TRANSFER", BANK, EXPORT)
    refused("F6", "SURRENDER_ACCEPTED", BANK)
    script.act("ALPH", "SURRENDER_REFUSED", CARRIER, state="LIVE", holder=BANK, possessor=BANK)
    script.act("ALPH", "SURRENDER_FOR_AMENDMENT", BANK, state="ASKED")
    script.act("ALPH", "SURRENDER_ACCEPTED", CARRIER, state="ENDED", holder=CARRIER, possessor=CARRIER)
    refused("F3", "ISSUE", CARRIER, EXPORT)
    script.attach(b"abc", "A", "NOT_ALLOWED", rule="F3")
    script.write({"acts": [], "end": "ALPH", "entries": 0, "state": "ENDED"})


# Acts on a bill of the carrier: the kind, the actor, and the recipient where there is one.
ISSUING, ENDORSING, HANDING = ("ISSUE", CARRIER, EXPORT), ("ENDORSE", EXPORT, BANK), ("TRANSFER", EXPORT, BANK)
LEAVING, DELIVERY = ("TRANSFER", EXPORT, IMPORT), ("SURRENDER_FOR_DELIVERY", EXPORT)
ACCEPTING, REFUSING = ("SURRENDER_ACCEPTED", CARRIER), ("SURRENDER_REFUSED", CARRIER)
ACTS = (ISSUING, ENDORSING, HANDING, LEAVING, DELIVERY, ("SURRENDER_FOR_AMENDMENT", EXPORT), ACCEPTING, REFUSING)

# What was done on a bill since it was signed, what each of those acts comes to then, and an attachment by the exporter.
STATES = (((), "DONE F4 F4 F4 F4 F4 F4 F4", "F7"),
          ((ISSUING,), "F4 DONE DONE DONE DONE DONE F4 F4", "DONE"),
          ((ISSUING, ENDORSING), "F4 F8 DONE DONE F8 F8 F4 F4", "DONE"),
          ((ISSUING, HANDING), "F4 F7 F7 F7 F7 F7 F4 F4", "F7"),
          ((ISSUING, DELIVERY), "F4 F4 F4 F4 F4 F4 DONE DONE", "F7"),
          ((ISSUING, DELIVERY, ACCEPTING), "F3 F3 F3 F3 F3 F3 F3 F3", "F3"))


def commands_in_every_state():
    """Each kind of command in each state and place of a bill. What changes a bill is done on a bill of its own."""
    script = Script("commands_in_every_state")
    count = 0

    def refusal(word):
        return {} if word == "DONE" else {"answer": "NOT_ALLOWED", "rule": word}

    def comes(number, act, **members):
        is_leaving = act == LEAVING and not members
        sent, place = ([len(script.world.sent) + 1], "PARTING") if is_leaving else ([], "HELD")
        script.act("ALPH", *act, number=number, sent=sent, **members or {"place": place})

    def new(done):
        """The number of a new bill on which this was done."""
        nonlocal count
        count += 1
        script.sign(further(count), bill=count)
        for act in done:
            comes(count, act)
        return count

    def not_here(number, place):
        for act in ACTS:
            comes(number, act, answer="NOT_HERE", **{"place": place})
        script.attach(b"abc", "A", "NOT_HERE", number=number, place=place)

    for done, words, attached in STATES:
        here = new(done)
        for act, word in zip(ACTS, words.split()):
            comes(new(done) if word == "DONE" else here, act, **refusal(word))
        reply = {} if attached == "DONE" else {"reply": "NOT_ALLOWED", "rule": attached}
        script.attach(b"abc", "A", number=here, **reply)
        script.sign(further(here), answer="KNOWN_BILL")
    away = new((ISSUING, LEAVING))
    start = len(script.world.sent)
    not_here(away, "PARTING")
    script.sign(further(away), answer="KNOWN_BILL")
    script.deliver(start, "RECE", [start + 1])
    script.deliver(start + 1, "DONE", place="GONE")
    not_here(away, "GONE")
    script.sign(further(away), answer="KNOWN_BILL")
    not_here(model.bill_of(further(count + 1)), "ABSENT")
    new(())
    script.write(*[{"forked": False}] * count)


def first_refusal():
    """Of several refusals of a command the first in the order of docs/commands.md is told."""
    script = Script("first_refusal")
    nobody = "ALPH/NOBODY"
    for party, answer in ((IMPORT, "NOT_OURS"), (EXPORT, "DOCUMENT")):
        script.sign({}, party=party, answer=answer)
    script.sign(party=EXPORT, answer="NOT_CARRIER")
    script.act("ALPH", "TRANSFER", IMPORT, nobody, number=BILL, answer="NOT_OURS")
    script.act("ALPH", "TRANSFER", BANK, nobody, number=BILL, answer="NOT_HERE", place="ABSENT")
    script.issue()
    script.sign(party=IMPORT, answer="NOT_OURS")
    script.sign(party=EXPORT, answer="NOT_CARRIER")
    script.sign(answer="KNOWN_BILL")
    for kind in ("TRANSFER", "SURRENDER_FOR_DELIVERY"):
        script.act("ALPH", kind, BANK, nobody, answer="NO_PARTY", party=nobody)
    script.write(NEW)


def no_message():
    script = Script("no_message")
    script.deliver(9, "NO_MESSAGE")
    script.event({"show": 1}, "NO_MESSAGE")
    script.deliver(model.MOST_NUMBER, "NO_MESSAGE", at="BETA")
    script.write()


def unknown_reference():
    script = Script("unknown_reference")
    script.event({"at": "BETA", "foreign": "FINISH", "reference": "447816bf-8f01-cfea-4141-40de5dae2223"},
                 "UNKNOWN_REFERENCE")
    script.write()


# ---- attachments and limits

def attached_twice():
    script = Script("attached_twice")
    script.issue()
    script.attach(b"abc", "A")
    script.attach(b"abc", "B")
    script.endorse()
    script.part()
    script.deliver(1, "STARTED", [2], missing=[ABC])
    script.deliver(2, "DONE", [3, 4])
    script.deliver(3, "STORED")
    script.deliver(4, "RECE", [5])
    for data in (b"abc", b"{}"):
        script.attach(data, "C", at="BETA", actor=IMPORT)
    script.act("BETA", "TRANSFER", IMPORT, EXPORT, sent=[6], place="PARTING")
    _, manifest = model.verified(json.loads(script.sent(6))["manifest"])
    assert [it["checksum"] for it in manifest["documents"]] == [ABC, EMPTY]
    script.show(6)
    script.deliver(6, "STARTED", [7], missing=[EMPTY])
    script.write({"acts": [], "end": "BETA", "entries": 1, "forked": False})


def documents_limit():
    script = Script("documents_limit")
    script.issue()
    for at in range(16):
        script.attach(b"%d" % at, "document %d" % at)
    script.attach(b"16", "document 16", "LIMIT", which="DOCUMENTS")
    script.attach(b"0", "document 0 again")
    script.event({"at": "ALPH", "bill": 1, "bytes": "YWJj", "do": "ATTACH", "media": "text/plain", "name": "A",
                  "party": BANK}, "NOT_ALLOWED", rule="F7")
    script.endorse()
    script.part()
    missing = [model.checksum(b"%d" % at) for at in range(16)]
    script.deliver(1, "STARTED", [2], missing=missing)
    script.deliver(2, "DONE", list(range(3, 20)))
    for at in range(16):
        script.deliver(3 + at, "STORED")
    script.deliver(19, "RECE", [20])
    script.write(AT_BETA)


def transactions_limit():
    """After 31 transactions that stay only a move is left; a surrender that stays needs a further place, for its
    refusal. A rule is told before a limit."""
    script = Script("transactions_limit")

    def handed(number, *route):
        """A new bill goes from the exporter along these parties."""
        script.sign(further(number), bill=number)
        script.act("ALPH", "ISSUE", CARRIER, EXPORT, number=number)
        for actor, recipient in zip((EXPORT, *route), route):
            script.act("ALPH", "TRANSFER", actor, recipient, number=number, possessor=recipient)

    def refused(number, *act):
        script.act("ALPH", *act, number=number, answer="LIMIT", which="TRANSACTIONS")

    handed(1, *[BANK, EXPORT] * 14, BANK)
    refused(1, "TRANSFER", BANK, EXPORT)
    script.act("ALPH", "TRANSFER", EXPORT, BANK, answer="NOT_ALLOWED", rule="F7")
    script.act("ALPH", "TRANSFER", BANK, IMPORT, sent=[1], place="PARTING")
    script.deliver(1, "RECE", [2])
    handed(2, *[BANK, EXPORT] * 14)
    for kind in ("SURRENDER_FOR_DELIVERY", "SURRENDER_FOR_AMENDMENT"):
        refused(2, kind, EXPORT)
    for number, kind in ((3, "SURRENDER_FOR_DELIVERY"), (4, "SURRENDER_FOR_AMENDMENT")):
        handed(number, *[BANK, EXPORT] * 12, BANK, CARRIER, EXPORT)
        script.act("ALPH", kind, EXPORT, number=number, state="ASKED")
    script.act("ALPH", "SURRENDER_REFUSED", CARRIER, number=3, state="LIVE")
    refused(3, "TRANSFER", EXPORT, BANK)
    script.act("ALPH", "SURRENDER_ACCEPTED", CARRIER, number=4, state="ENDED")
    script.write({"acts": ["BETA"], "end": "BETA", "entries": 1, "holder": EXPORT, "possessor": IMPORT},
                 {"possessor": EXPORT, "state": "LIVE"}, {"possessor": EXPORT, "state": "LIVE"}, {"state": "ENDED"})


def entries_limit():
    """A chain of 64 entries is received, and goes nowhere else."""
    script = Script("entries_limit")
    script.issue()
    here, there = ("ALPH", EXPORT), ("BETA", IMPORT)
    for at in range(64):
        script.act(here[0], "TRANSFER", here[1], there[1], sent=[2 * at + 1], entries=at)
        script.deliver(2 * at + 1, "RECE", [2 * at + 2])
        script.deliver(2 * at + 2, "DONE", place="GONE", entries=at + 1)
        here, there = there, here
    script.act("ALPH", "TRANSFER", EXPORT, IMPORT, answer="LIMIT", which="ENTRIES")
    script.act("ALPH", "TRANSFER", EXPORT, BANK, place="HELD", entries=64)
    script.write({"acts": ["ALPH"], "end": "ALPH", "entries": 64, "holder": EXPORT, "possessor": BANK})


# ---- one of each reply

def every_reply():
    script = Script("every_reply")
    script.deliver(1, "NO_MESSAGE")
    script.ask("BETA", BILL, bill=BILL, place="ABSENT")
    script.act("ALPH", "ISSUE", CARRIER, EXPORT, answer="NO_BILL")
    script.sign({}, answer="DOCUMENT", fault="FORM")
    script.sign(party=EXPORT, answer="NOT_CARRIER")
    script.issue()
    script.sign(answer="KNOWN_BILL")
    script.act("ALPH", "TRANSFER", IMPORT, EXPORT, answer="NOT_OURS")
    script.act("ALPH", "TRANSFER", EXPORT, "ALPH/NOBODY", answer="NO_PARTY")
    script.act("ALPH", "TRANSFER", CARRIER, EXPORT, answer="NOT_ALLOWED", rule="F7")
    script.event({"at": "ALPH", "bill": 1, "resend": True}, "NOT_PARTING", place="HELD")
    script.attach(b"abc", "A")
    for at in range(15):
        script.attach(b"%d" % at, "document %d" % at)
    script.attach(b"15", "document 15", "LIMIT", which="DOCUMENTS")
    script.endorse()
    script.part()
    script.act("ALPH", "TRANSFER", EXPORT, IMPORT, answer="NOT_HERE", place="PARTING")
    script.start("BETA", "", "BENV", [2], reason="BODY")
    forged = dict(json.loads(script.sent(1)), chain=["a.b.c"])
    script.start("BETA", forged, "BSIG", [3], reason="SIGNATURE", index=0)
    reference = script.reference(1)
    script.event({"at": "BETA", "foreign": "FINISH", "reference": reference}, "UNKNOWN_REFERENCE")
    script.deliver(1, "STARTED", [4])
    script.deliver(4, "DONE", list(range(5, 22)))
    script.deliver(21, "MDOC", [22])
    script.deliver(5, "STORED")
    script.event({"at": "BETA", "bytes": "", "checksum": EMPTY, "foreign": "PUT", "reference": reference},
                 "INCD", [23], reason="NOT_LISTED")
    for number in range(6, 21):
        script.deliver(number, "STORED")
    script.event({"restart": "BETA"}, "OPENED")
    script.deliver(21, "RECE", [24])
    script.deliver(21, "DUPE", [25])
    script.show(21, **{"from": "ALPH"}, to="BETA", kind="FINISH", bytes="")
    script.deliver(22, "IGNORED", reason="PASSING")
    script.deliver(24, "DONE", place="GONE")
    forged = model.sign(entry_of("ALPH", [SIGN, ISSUE, transfer(EXPORT, IMPORT)]), "ALPH")
    script.start("BETA", body_of([forged]), "DISE", [26], reason="PARTS", standing=True)
    script.write(AT_BETA)


def bad_line():
    """Its third line names a platform that the roster doesn't list."""
    lines = [{"roster": ONE_PLATFORM},
             {"at": "ALPH", "do": "SIGN", "document": DOCUMENT, "now": 1000, "party": CARRIER},
             {"at": "BETA", "bill": 1, "do": "ISSUE", "now": 2000, "party": CARRIER, "recipient": EXPORT}]
    script = "".join(model.canon(line) + "\n" for line in lines)
    answers, bad = model.run(script.encode())
    assert bad == 3 and len(answers) == 1
    for end, text in ((".jsonl", script), (".out", answers[0] + "\n")):
        with open(os.path.join(HERE, "bad_line" + end), "w", encoding="utf-8") as file:
            file.write(text)


def main():
    for make in (transfer_to_another_platform, repeated_delivery, restart_while_parting, uploaded_documents,
                 start_delivered_twice, restart_between_uploads, unknown_receiver, answer_about_another_entry,
                 return_before_the_answer, to_another_platform, surrender, two_bills_of_two_carriers,
                 bills_of_one_shard, chain_without_its_middle, parted_chains, texts_of_disputes, chains_that_meet,
                 first_judgement, dispute_at_the_finish, forked_chains, two_continuations, refused_bodies,
                 forged_starts,
                 ignored_replies, foreign_uploads, asked_documents, other_partys_platform, no_bill_before_not_ours,
                 not_the_carrier, documents_of_no_bill, nobody_here, asker_of_no_platform, rules_of_titles,
                 commands_in_every_state, first_refusal, no_message, unknown_reference, attached_twice,
                 documents_limit, transactions_limit, entries_limit, every_reply, bad_line):
        make()


if __name__ == "__main__":
    main()
