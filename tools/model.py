"""The rules of docs/ for scripts over several platforms, written once more in Python: what a script is answered.

It shares no code with the program and was written from the rules alone, so a line at which the two differ shows an
error in one of them. It keeps nothing but lists of records and goes over them for each question.
"""
import base64
import binascii
import hashlib
import hmac
import json
import re
import uuid
from decimal import Decimal, InvalidOperation

SHARDS = 16
MOST_LINES = 100_000
MOST_ENTRIES = 64
MOST_DOCUMENTS = 16
MOST_BYTES = 2_097_152
MOST_ALL_BYTES = 4_194_304
MOST_TEXT = 16_384
MOST_RESPONSE = 65_536
MOST_DOCUMENT = 262_144
MOST_NUMBER = 2**53 - 1
NOBODYS_BILL = "0" * 64

KINDS = ("SIGN", "ISSUE", "ENDORSE", "TRANSFER", "SURRENDER_FOR_DELIVERY", "SURRENDER_FOR_AMENDMENT",
         "SURRENDER_ACCEPTED", "SURRENDER_REFUSED")
SURRENDERS = KINDS[4:6]

# The reasons of each code, and those that come with the place of an entry.
REASONS = {"BENV": {"BODY", "DOCUMENT", "LENGTH", "ENTRY", "LINK", "BILL", "CARRIER", "PLATFORM", "FOLD", "MOVE",
                    "MANIFEST_FORM", "MANIFEST_NAMES", "DESTINATION", "PARTY"},
           "BSIG": {"SIGNATURE", "SIGNER", "MANIFEST_SIGNATURE"}, "DISE": {"PARTS"}, "INCD": {"NOT_LISTED", "BYTES"},
           "RECE": set(), "DUPE": set(), "MDOC": set()}
PLACED = {"SIGNATURE", "ENTRY", "SIGNER", "LINK", "BILL", "PLATFORM", "FOLD", "MOVE"}


# ---- JSON

class Refused(Exception):
    """A text that is no JSON value of a script."""


def _object(pairs):
    names = [name for name, _ in pairs]
    if len(set(names)) != len(names):
        raise Refused("REPEATED")
    return dict(pairs)


def _decimal(text):
    if "e" in text or "E" in text:
        raise Refused("FRACTION")
    value = Decimal(text)
    if value == value.to_integral_value():
        return _whole(str(int(value)))
    if len(value.normalize().as_tuple().digits) > 15 or abs(value) < Decimal("0.000001"):
        raise Refused("FRACTION")
    return value


def _whole(text):
    value = int(text)
    if abs(value) > MOST_NUMBER:
        raise Refused("RANGE")
    return value


def _constant(text):
    raise Refused("NOT_JSON")


def _depth(value):
    if isinstance(value, dict):
        return 1 + max(map(_depth, value.values()), default=0)
    if isinstance(value, list):
        return 1 + max(map(_depth, value), default=0)
    return 0


def read_json(text):
    """The value of bytes; Refused where they have none."""
    try:
        value = json.loads(text.decode("utf-8"), object_pairs_hook=_object, parse_float=_decimal, parse_int=_whole,
                           parse_constant=_constant)
    except (ValueError, InvalidOperation, RecursionError) as error:
        raise Refused("NOT_JSON") from error
    if _depth(value) > 127 or _has_lone_surrogate(value):
        raise Refused("NOT_JSON")
    return value


def _has_lone_surrogate(value):
    if isinstance(value, str):
        return any("\ud800" <= c <= "\udfff" for c in value)
    if isinstance(value, list):
        return any(map(_has_lone_surrogate, value))
    if isinstance(value, dict):
        return any(_has_lone_surrogate(name) or _has_lone_surrogate(it) for name, it in value.items())
    return False


def canon(value):
    """The canonical text (RFC 8785)."""
    if isinstance(value, dict):
        names = sorted(value, key=lambda name: name.encode("utf-16-be"))
        return "{%s}" % ",".join(_text(name) + ":" + canon(value[name]) for name in names)
    if isinstance(value, list):
        return "[%s]" % ",".join(map(canon, value))
    if isinstance(value, Decimal):
        return format(value.normalize(), "f")
    if isinstance(value, str):
        return _text(value)
    return json.dumps(value)


def _text(text):
    return json.dumps(text, ensure_ascii=False)


def is_whole(value, least, most):
    return isinstance(value, int) and not isinstance(value, bool) and least <= value <= most


# ---- small forms

def is_code(value):
    return isinstance(value, str) and re.fullmatch("[A-Z0-9]{4}", value) is not None


def is_party(value):
    return isinstance(value, str) and re.fullmatch("[A-Z0-9]{4}/[A-Z0-9_-]{1,35}", value) is not None


def is_checksum(value):
    return isinstance(value, str) and re.fullmatch("[0-9a-f]{64}", value) is not None


def is_carrier_code(value):
    return isinstance(value, str) and re.fullmatch("[A-Z0-9]{1,4}", value) is not None


def is_name(value, most):
    return (isinstance(value, str) and 1 <= len(value.encode()) <= most
            and all(c >= " " and c != "\x7f" for c in value))


def platform_of(party):
    return party[:4]


def checksum(data):
    return hashlib.sha256(data).hexdigest()


def reference_in(text):
    """The sixteen bytes of a UUID in any of its spellings, in hexadecimal; None where the text is none."""
    if not isinstance(text, str):
        return None
    hyphens = "[0-9a-fA-F]{8}(-[0-9a-fA-F]{4}){3}-[0-9a-fA-F]{12}"
    if re.fullmatch(r"(%s|[0-9a-fA-F]{32}|\{%s\}|urn:uuid:%s)" % (hyphens, hyphens, hyphens), text):
        return re.sub("[^0-9a-f]", "", text[9:].lower() if text.startswith("urn:uuid:") else text.lower())
    return None


def reference_of(bill, entry):
    return bill[:2] + entry[2:32]


def reference_text(reference):
    return str(uuid.UUID(hex=reference))


def bytes_in(text):
    """The bytes of a text in standard base64 in its one strict spelling; None where it is none."""
    if not isinstance(text, str):
        return None
    try:
        data = base64.b64decode(text.encode("ascii"), validate=True)
    except (ValueError, binascii.Error):
        return None
    return data if base64.b64encode(data).decode() == text else None


# ---- signed texts

def key_of(platform):
    """The key of a platform under the test signer."""
    return hashlib.sha256(b"EBL-TEST-KEY-" + platform.encode()).digest()


def _url(data):
    return base64.urlsafe_b64encode(data).rstrip(b"=").decode()


def _unurl(part):
    if not re.fullmatch("[A-Za-z0-9_-]*", part) or len(part) % 4 == 1:
        return None
    data = base64.urlsafe_b64decode(part + "=" * (-len(part) % 4))
    return data if _url(data) == part else None


def sign(payload, platform, key=None):
    """The compact layout of a payload that a platform signs."""
    return signed_with_header({"alg": "HS256", "kid": platform}, payload, platform, key)


def signed_with_header(header, payload, platform, key=None):
    """The same with a header of one's own."""
    front = _url(canon(header).encode()) + "." + _url(canon(payload).encode())
    return front + "." + _url(hmac.new(key or key_of(platform), front.encode(), hashlib.sha256).digest())


_VERIFIED = {}


def verified(text, most=MOST_TEXT):
    """(platform, payload) of a signed text, or None where it isn't one that verifies."""
    if (text, most) not in _VERIFIED:
        _VERIFIED[text, most] = _verified(text, most)
    return _VERIFIED[text, most]


def _verified(text, most):
    parts = text.split(".")
    if len(text.encode()) > most or len(parts) != 3:
        return None
    header, payload, signature = map(_unurl, parts)
    if header is None or payload is None or signature is None or not 1 <= len(signature) <= 64:
        return None
    try:
        header = read_json(header)
    except Refused:
        return None
    if not isinstance(header, dict) or header.get("alg") != "HS256" or not is_code(header.get("kid")):
        return None
    if "crit" in header:
        return None
    made = hmac.new(key_of(header["kid"]), ".".join(parts[:2]).encode(), hashlib.sha256).digest()
    if made != signature:
        return None
    try:
        return header["kid"], read_json(payload)
    except Refused:
        return None


# ---- titles

class Title:
    def __init__(self, state, carrier, possessor, holder):
        self.state, self.carrier, self.possessor, self.holder = state, carrier, possessor, holder


def apply(title, t):
    """(title, None) after a transaction, or (None, rule)."""
    kind, actor, recipient = t["kind"], t["actor"], t.get("recipient")
    if kind == "SIGN" and title is not None:
        return None, "F1"
    if kind != "SIGN" and title is None:
        return None, "F2"
    if title is not None and title.state == "ENDED":
        return None, "F3"
    needed = {"ISSUE": "SIGNED", "SURRENDER_ACCEPTED": "ASKED", "SURRENDER_REFUSED": "ASKED"}.get(kind, "LIVE")
    if title is not None and title.state != needed:
        return None, "F4"
    if (kind in ("ISSUE", "ENDORSE", "TRANSFER")) != (recipient is not None):
        return None, "F5"
    if kind == "SIGN":
        return Title("SIGNED", actor, actor, actor), None
    by_carrier = kind in ("ISSUE", "SURRENDER_ACCEPTED", "SURRENDER_REFUSED")
    if by_carrier and actor != title.carrier:
        return None, "F6"
    if not by_carrier and actor != title.possessor:
        return None, "F7"
    if kind in ("ENDORSE", *SURRENDERS) and actor != title.holder:
        return None, "F8"
    if kind in ("ENDORSE", "TRANSFER") and recipient == actor:
        return None, "F9"
    if kind == "ISSUE":
        return Title("LIVE", title.carrier, recipient, recipient), None
    if kind == "ENDORSE":
        return Title("LIVE", title.carrier, title.possessor, recipient), None
    if kind == "TRANSFER":
        return Title("LIVE", title.carrier, recipient, title.holder), None
    if kind in SURRENDERS:
        return Title("ASKED", title.carrier, title.carrier, actor), None
    if kind == "SURRENDER_ACCEPTED":
        return Title("ENDED", title.carrier, title.carrier, title.carrier), None
    return Title("LIVE", title.carrier, title.holder, title.holder), None


def fold(transactions):
    title = None
    for t in transactions:
        title, _ = apply(title, t)
    return title


# ---- entries, manifests, bodies

class Link:
    """An entry with its signed text."""

    def __init__(self, text, entry):
        self.text, self.name, self.entry = text, checksum(text.encode()), entry


def is_transaction(value):
    return (isinstance(value, dict) and value.get("kind") in KINDS and is_party(value.get("actor"))
            and ("recipient" not in value or is_party(value["recipient"]))
            and is_whole(value.get("time"), 0, MOST_NUMBER))


def entry_in(value):
    """The entry of a JSON value without its further members; None where it has another form."""
    if not isinstance(value, dict) or not is_code(value.get("platform")) or not is_checksum(value.get("bill")):
        return None
    if "previous" in value and not is_checksum(value["previous"]):
        return None
    transactions = value.get("transactions")
    if not is_whole(value.get("attempt"), 1, 2**32 - 1) or not isinstance(transactions, list):
        return None
    if not 1 <= len(transactions) <= 32 or not all(map(is_transaction, transactions)):
        return None
    entry = {name: value[name] for name in ("platform", "bill", "previous", "attempt") if name in value}
    return dict(entry, transactions=[{name: t[name] for name in ("kind", "actor", "recipient", "time") if name in t}
                                     for t in transactions])


def piece_in(value):
    if not isinstance(value, dict) or not is_name(value.get("name"), 128) or not is_name(value.get("media"), 64):
        return None
    if not is_whole(value.get("size"), 0, MOST_BYTES) or not is_checksum(value.get("checksum")):
        return None
    return {name: value[name] for name in ("name", "media", "size", "checksum")}


def manifest_in(value):
    if not isinstance(value, dict) or not is_checksum(value.get("bill")) or not is_checksum(value.get("last")):
        return None
    documents = value.get("documents")
    if not isinstance(documents, list) or len(documents) > MOST_DOCUMENTS:
        return None
    pieces = list(map(piece_in, documents))
    if None in pieces or len({it["checksum"] for it in pieces}) != len(pieces):
        return None
    if sum(it["size"] for it in pieces) > MOST_ALL_BYTES:
        return None
    return {"bill": value["bill"], "last": value["last"], "documents": pieces}


def body_in(data):
    try:
        value = read_json(data)
    except Refused:
        return None
    if not isinstance(value, dict) or not isinstance(value.get("document"), dict):
        return None
    if not isinstance(value.get("manifest"), str) or not isinstance(value.get("chain"), list):
        return None
    if not all(isinstance(text, str) for text in value["chain"]):
        return None
    return {name: value[name] for name in ("document", "manifest", "chain")}


def document_fault(value):
    """Why a document isn't one of a bill: (fault, field), and None where it is one."""
    if not isinstance(value, dict):
        return "FORM", "transportDocumentReference"
    reference = value.get("transportDocumentReference")
    if not isinstance(reference, str) or not 1 <= len(reference) <= 20:
        return "FORM", "transportDocumentReference"
    if not is_carrier_code(value.get("carrierCode")):
        return "FORM", "carrierCode"
    if value.get("carrierCodeListProvider") not in ("SMDG", "NMFTA"):
        return "FORM", "carrierCodeListProvider"
    if value.get("transportDocumentTypeCode") not in ("BOL", "SWB"):
        return "FORM", "transportDocumentTypeCode"
    if not isinstance(value.get("isToOrder"), bool):
        return "FORM", "isToOrder"
    if value["transportDocumentTypeCode"] == "SWB":
        return "NOT_TITLE", None
    return ("TOO_LARGE", None) if len(canon(value).encode()) > MOST_DOCUMENT else None


def bill_of(document):
    return checksum(canon(document).encode())


def transactions_of(chain):
    return [t for link in chain for t in link.entry["transactions"]]


def destination(chain):
    return platform_of(fold(transactions_of(chain)).possessor)


class Wrong(Exception):
    """What a body shows before any diary is looked at: a code, a reason, and the place of an entry."""


def checked_chain(roster, document, texts):
    """The chain of a body's texts; Wrong for the first thing that is wrong."""
    if not 1 <= len(texts) <= MOST_ENTRIES:
        raise Wrong("BENV", "LENGTH")
    chain = []
    for at, text in enumerate(texts):
        found = verified(text)
        if found is None:
            raise Wrong("BSIG", "SIGNATURE", at)
        entry = entry_in(found[1])
        if entry is None:
            raise Wrong("BENV", "ENTRY", at)
        if entry["platform"] != found[0]:
            raise Wrong("BSIG", "SIGNER", at)
        chain.append(Link(text, entry))
    title = None
    for at, link in enumerate(chain):
        if link.entry.get("previous") != (chain[at - 1].name if at else None):
            raise Wrong("BENV", "LINK", at)
        if link.entry["bill"] != bill_of(document):
            raise Wrong("BENV", "BILL", at)
        first = link.entry["transactions"][0]["actor"]
        if at == 0 and first != roster.carrier(document):
            raise Wrong("BENV", "CARRIER")
        if link.entry["platform"] != platform_of(title.possessor if title else first):
            raise Wrong("BENV", "PLATFORM", at)
        moved = []
        for t in link.entry["transactions"]:
            title, rule = apply(title, t)
            if rule:
                raise Wrong("BENV", "FOLD", at)
            moved.append(platform_of(title.possessor) != link.entry["platform"])
        if any(moved[:-1]) or not moved[-1]:
            raise Wrong("BENV", "MOVE", at)
    return chain


def checked_body(roster, body):
    """(chain, manifest) of a body that has its form and whose document is one of a bill."""
    chain = checked_chain(roster, body["document"], body["chain"])
    found = verified(body["manifest"])
    if found is None or found[0] != chain[-1].entry["platform"]:
        raise Wrong("BSIG", "MANIFEST_SIGNATURE")
    manifest = manifest_in(found[1])
    if manifest is None:
        raise Wrong("BENV", "MANIFEST_FORM")
    if (manifest["bill"], manifest["last"]) != (bill_of(body["document"]), chain[-1].name):
        raise Wrong("BENV", "MANIFEST_NAMES")
    return chain, manifest


def response_in(value):
    """A response that has its form, or None."""
    if not isinstance(value, dict) or value.get("responseCode") not in REASONS:
        return None
    if any(name in value and not is_checksum(value[name]) for name in ("bill", "last")):
        return None
    if not isinstance(value.get("standing"), bool):
        return None
    reason = value.get("reason")
    if "reason" in value and (not isinstance(reason, str) or reason not in REASONS[value["responseCode"]]):
        return None
    if (reason in PLACED) != ("index" in value) or "index" in value and not is_whole(value["index"], 0, 63):
        return None
    if not isinstance(value.get("missing"), list) or not all(map(is_checksum, value["missing"])):
        return None
    if any(name in value and not isinstance(value[name], str) for name in ("own", "theirs")):
        return None
    return value


def started_in(data):
    """(reference, missing) of the text of a Started, or None."""
    try:
        value = read_json(data)
    except Refused:
        return None
    if not isinstance(value, dict) or reference_in(value.get("reference")) is None:
        return None
    missing = value.get("missing")
    if not isinstance(missing, list) or not 1 <= len(missing) <= 16 or not all(map(is_checksum, missing)):
        return None
    return reference_in(value["reference"]), missing


# ---- the script

class Roster:
    def __init__(self, value):
        self.platforms, self.parties = value["platforms"], set(value["parties"])
        self.carriers = {(it["provider"], it["code"]): it["party"] for it in value["carriers"]}

    def carrier(self, document):
        return self.carriers.get((document["carrierCodeListProvider"], document["carrierCode"]))


def _is_list(value, least, most):
    return isinstance(value, list) and least <= len(value) <= most


def roster_in(line):
    """The roster of a script's first line, or None."""
    try:
        value = read_json(line)
    except Refused:
        return None
    value = value.get("roster") if isinstance(value, dict) else None
    if not isinstance(value, dict):
        return None
    platforms, parties, carriers = (value.get(name) for name in ("platforms", "parties", "carriers"))
    if not _is_list(platforms, 1, 8) or not all(map(is_code, platforms)) or len(set(platforms)) < len(platforms):
        return None
    if not _is_list(parties, 1, 1024) or not all(map(is_party, parties)) or len(set(parties)) < len(parties):
        return None
    if not all(platform_of(party) in platforms for party in parties) or not _is_list(carriers, 1, 64):
        return None
    for it in carriers:
        if not isinstance(it, dict) or it.get("provider") not in ("SMDG", "NMFTA"):
            return None
        if not is_carrier_code(it.get("code")) or not isinstance(it.get("party"), str) or it["party"] not in parties:
            return None
    if len({(it["provider"], it["code"]) for it in carriers}) < len(carriers):
        return None
    return Roster(value)


def _is_bill(value):
    return is_checksum(value) or is_whole(value, 1, MOST_NUMBER)


def _is_command(value):
    if not is_code(value.get("at")) or not is_party(value.get("party")):
        return False
    if "now" in value and not is_whole(value["now"], 0, MOST_NUMBER):
        return False
    deed = value["do"]
    if deed == "SIGN":
        return "document" in value
    if deed == "ATTACH":
        return (_is_bill(value.get("bill")) and is_name(value.get("name"), 128) and is_name(value.get("media"), 64)
                and bytes_in(value.get("bytes")) is not None)
    return (isinstance(deed, str) and deed in KINDS and _is_bill(value.get("bill"))
            and ("recipient" not in value or is_party(value["recipient"])))


def _is_foreign(value):
    if not is_code(value.get("at")):
        return False
    kind = value["foreign"]
    if kind == "START":
        return isinstance(value.get("body"), str)
    if kind == "PUT":
        return (reference_in(value.get("reference")) is not None and is_checksum(value.get("checksum"))
                and bytes_in(value.get("bytes")) is not None)
    if kind == "FINISH":
        return reference_in(value.get("reference")) is not None
    if kind not in ("START_REPLY", "FINISH_REPLY"):
        return False
    return _is_bill(value.get("bill")) and isinstance(value.get("text"), str)


# The members that say which event an object is: the first of them that it has.
MARKS = ("do", "deliver", "restart", "resend", "ask", "foreign", "show")


def mark_of(value):
    return next((mark for mark in MARKS if mark in value), None)


def is_event(value):
    """Whether a JSON value is an event, at any platform."""
    mark = mark_of(value) if isinstance(value, dict) else None
    if mark == "do":
        return _is_command(value)
    if mark == "deliver":
        return is_whole(value["deliver"], 1, MOST_NUMBER) and ("at" not in value or is_code(value["at"]))
    if mark == "restart":
        return is_code(value["restart"])
    if mark in ("resend", "ask"):
        return value[mark] is True and is_code(value.get("at")) and _is_bill(value.get("bill"))
    if mark == "foreign":
        return _is_foreign(value)
    return mark == "show" and is_whole(value["show"], 1, MOST_NUMBER)


def event_in(roster, line):
    """The event of a later line, or None."""
    try:
        value = read_json(line)
    except Refused:
        return None
    if not is_event(value):
        return None
    named = {"restart": value.get("restart"), "show": None}.get(mark_of(value), value.get("at"))
    return value if named is None or named in roster.platforms else None


# ---- diaries

class Record:
    def __init__(self, kind, **members):
        self.kind = kind
        self.__dict__.update(members)


class Place:
    """Where a bill is on a platform: a tag, the known chain, the transactions since, the link that is parting."""

    def __init__(self, tag, known=(), since=(), link=None):
        self.tag, self.known, self.since, self.link = tag, list(known), list(since), link

    def transactions(self):
        more = self.link.entry["transactions"] if self.tag == "PARTING" else self.since
        return transactions_of(self.known) + list(more)


def is_prefix(chain, longer):
    """Whether a chain is a proper prefix of another, by the names of their entries."""
    return len(chain) < len(longer) and all(a.name == b.name for a, b in zip(chain, longer))


class Shard:
    """One shard of a platform, with its records in their order."""

    def __init__(self, me, roster):
        self.me, self.roster, self.records = me, roster, []

    # what the records say of a bill

    def of_bill(self, bill):
        return [r for r in self.records if r.bill == bill]

    def begun(self, reference):
        """The last Begun with a reference, or None."""
        for r in reversed(self.records):
            if r.kind == "BEGUN" and reference_of(r.bill, r.chain[-1].name) == reference:
                return r
        return None

    def begun_of(self, entry):
        return [r for r in self.records if r.kind == "BEGUN" and r.chain[-1].name == entry][-1]

    def place(self, bill):
        place = Place("ABSENT")
        for r in self.of_bill(bill):
            if r.kind == "SIGNED":
                place = Place("HELD", (), [r.transaction])
            elif r.kind == "ACTED":
                place = Place("HELD", place.known, place.since + [r.transaction])
            elif r.kind == "PARTED":
                place = Place("PARTING", place.known, place.since, r.link)
            elif r.kind == "SETTLED":
                place = Place("GONE", place.known + [place.link])
            elif r.kind == "REGAINED":
                place = Place("HELD", place.known, place.since)
            elif r.kind == "TAKEN":
                place = Place("HELD", r.begun.chain)
        return place

    def pieces(self, bill):
        pieces = []
        for r in self.of_bill(bill):
            if r.kind == "TAKEN":
                pieces = list(r.begun.manifest["documents"])
            elif r.kind == "ATTACHED":
                pieces.append(r.piece)
        return pieces

    def stored(self, bill):
        """The bytes that are there for a bill, by their checksums."""
        return {checksum(r.data): r.data for r in self.of_bill(bill) if r.kind in ("ATTACHED", "STORED")}

    def document(self, bill):
        return next(r.document for r in self.of_bill(bill) if r.kind in ("SIGNED", "BEGUN"))

    def accepted(self, bill):
        return [r.begun.chain for r in self.of_bill(bill) if r.kind == "TAKEN"]

    def may_act(self, bill):
        place = self.place(bill)
        return place.tag == "HELD" and fold(place.transactions()).state != "ENDED"

    # replies

    def view(self, bill):
        place = self.place(bill)
        shown = {"bill": bill, "entries": len(place.known), "place": place.tag}
        if place.tag != "ABSENT":
            title = fold(place.transactions())
            shown.update(holder=title.holder, possessor=title.possessor, state=title.state)
        return shown

    def done(self, bill):
        return {"reply": "DONE", "view": self.view(bill)}, []

    # commands

    def command(self, party, now, event, bill):
        if platform_of(party) != self.me:
            return {"reply": "NOT_OURS"}, []
        if event["do"] == "SIGN":
            return self.sign(party, now, event["document"])
        place = self.place(bill)
        if place.tag != "HELD":
            return {"reply": "NOT_HERE", "place": place.tag}, []
        title = fold(place.transactions())
        if event["do"] == "ATTACH":
            return self.attach(party, title, bill, event)
        t = {"kind": event["do"], "actor": party, "time": now}
        if "recipient" in event:
            t["recipient"] = event["recipient"]
        return self.act(place, title, bill, t)

    def sign(self, party, now, document):
        fault = document_fault(document)
        if fault:
            answer = {"reply": "DOCUMENT", "fault": fault[0]}
            return (dict(answer, field=fault[1]) if fault[1] else answer), []
        if self.roster.carrier(document) != party:
            return {"reply": "NOT_CARRIER"}, []
        bill = bill_of(document)
        if self.place(bill).tag != "ABSENT":
            return {"reply": "KNOWN_BILL"}, []
        t = {"kind": "SIGN", "actor": party, "time": now}
        self.records.append(Record("SIGNED", bill=bill, document=document, transaction=t))
        return self.done(bill)

    def unknown_party(self, title, t):
        """The party to which nothing can go, or None."""
        party = t.get("recipient")
        if party is None:
            asker = t["kind"] == "SURRENDER_REFUSED" and title.state == "ASKED" and title.holder
            return asker if asker and platform_of(asker) not in self.roster.platforms else None
        if platform_of(party) not in self.roster.platforms:
            return party
        return party if platform_of(party) == self.me and party not in self.roster.parties else None

    def act(self, place, title, bill, t):
        party = self.unknown_party(title, t)
        if party is not None:
            return {"reply": "NO_PARTY", "party": party}, []
        after, rule = apply(title, t)
        if rule:
            return {"reply": "NOT_ALLOWED", "rule": rule}, []
        moves = platform_of(after.possessor) != self.me
        if moves and len(place.known) == MOST_ENTRIES:
            return {"reply": "LIMIT", "which": "ENTRIES"}, []
        most = 32 if moves or t["kind"] == "SURRENDER_ACCEPTED" else 30 if t["kind"] in SURRENDERS else 31
        if len(place.since) + 1 > most:
            return {"reply": "LIMIT", "which": "TRANSACTIONS"}, []
        if not moves:
            self.records.append(Record("ACTED", bill=bill, transaction=t))
            return self.done(bill)
        return self.part(place, bill, place.since + [t])

    def part(self, place, bill, transactions):
        attempt = 1 + sum(r.kind == "PARTED" for r in self.of_bill(bill))
        entry = {"platform": self.me, "bill": bill, "attempt": attempt, "transactions": transactions}
        if place.known:
            entry["previous"] = place.known[-1].name
        link = Link(sign(entry, self.me), entry)
        manifest = {"bill": bill, "last": link.name, "documents": self.pieces(bill)}
        self.records.append(Record("PARTED", bill=bill, link=link, manifest=manifest,
                                   manifest_text=sign(manifest, self.me)))
        return self.done(bill)[0], [self.start(bill)]

    def start(self, bill):
        """The start of the entry that is parting."""
        parted = [r for r in self.of_bill(bill) if r.kind == "PARTED"][-1]
        chain = self.place(bill).known + [parted.link]
        body = {"document": self.document(bill), "manifest": parted.manifest_text,
                "chain": [link.text for link in chain]}
        return {"kind": "START", "to": destination(chain), "bill": bill, "data": canon(body).encode()}

    def attach(self, party, title, bill, event):
        data = bytes_in(event["bytes"])
        if title.state == "ENDED":
            return {"reply": "NOT_ALLOWED", "rule": "F3"}, []
        if title.possessor != party:
            return {"reply": "NOT_ALLOWED", "rule": "F7"}, []
        if len(data) > MOST_BYTES:
            return {"reply": "LIMIT", "which": "DOCUMENT_SIZE"}, []
        pieces = self.pieces(bill)
        if checksum(data) not in {it["checksum"] for it in pieces}:
            if len(pieces) == MOST_DOCUMENTS:
                return {"reply": "LIMIT", "which": "DOCUMENTS"}, []
            if sum(it["size"] for it in pieces) + len(data) > MOST_ALL_BYTES:
                return {"reply": "LIMIT", "which": "DOCUMENT_BYTES"}, []
            piece = {"name": event["name"], "media": event["media"], "size": len(data), "checksum": checksum(data)}
            self.records.append(Record("ATTACHED", bill=bill, piece=piece, data=data))
        return self.done(bill)

    # messages

    def answer(self, code, bill=None, last=None, standing=False, reason=None, index=None, missing=(), evidence=()):
        """A signed answer: its row's members, with the text and the bill for the world."""
        response = {"responseCode": code, "standing": standing, "missing": list(missing)}
        optional = {"bill": bill, "last": last, "reason": reason, "index": index, **dict(evidence)}
        response.update({name: it for name, it in optional.items() if it is not None})
        row = {"reply": code, "standing": standing}
        if code == "MDOC":
            row["missing"] = list(missing)
        row.update({name: it for name, it in optional.items() if it is not None and name not in ("bill", "last")})
        return dict(row, text=sign(response, self.me).encode(), of=bill), []

    def take_start(self, data):
        body = body_in(data)
        if body is None:
            return self.answer("BENV", reason="BODY")
        last = checksum(body["chain"][-1].encode()) if body["chain"] else None
        if document_fault(body["document"]):
            return self.answer("BENV", last=last, reason="DOCUMENT")
        bill = bill_of(body["document"])
        try:
            chain, manifest = checked_body(self.roster, body)
        except Wrong as wrong:
            code, reason, index = (*wrong.args, None)[:3]
            return self.answer(code, bill, last, reason=reason, index=index)
        begun = Record("BEGUN", bill=bill, document=body["document"], chain=chain, manifest=manifest,
                       body=canon(body))
        return self.judge(begun, at_start=True)

    def judge(self, begun, at_start):
        bill, chain, last = begun.bill, begun.chain, begun.chain[-1].name
        if destination(chain) != self.me:
            return self.answer("BENV", bill, last, reason="DESTINATION")
        for r in self.records:
            if r.kind == "TAKEN" and r.entry == last:
                return self.answer("DUPE", bill, last)
        for r in self.records:
            if r.kind == "DECLINED" and r.entry == last:
                return self.answer(r.code, bill, last, True, r.reason, evidence=r.evidence)
        place = self.place(bill)
        own = place.known + ([place.link] if place.tag == "PARTING" else [])
        if not (place.tag == "ABSENT" or place.tag in ("GONE", "PARTING") and is_prefix(own, chain)):
            evidence = parting_texts(own, chain)
            self.records.append(Record("DECLINED", bill=bill, entry=last, code="DISE", reason="PARTS",
                                       evidence=evidence))
            return self.answer("DISE", bill, last, True, "PARTS", evidence=evidence)
        if fold(transactions_of(chain)).possessor not in self.roster.parties:
            self.records.append(Record("DECLINED", bill=bill, entry=last, code="BENV", reason="PARTY", evidence={}))
            return self.answer("BENV", bill, last, True, "PARTY")
        there = self.stored(bill)
        missing = [it["checksum"] for it in begun.manifest["documents"] if it["checksum"] not in there]
        reference = reference_of(bill, last)
        if at_start:
            before = self.begun(reference)
            if before is None or before.body != begun.body:
                self.records.append(begun)
            else:
                begun = before
        if not missing:
            self.records.append(Record("TAKEN", bill=bill, entry=last, begun=begun))
            return self.answer("RECE", bill, last)
        if at_start:
            started = {"reference": reference_text(reference), "missing": missing}
            return dict(started, reply="STARTED", text=canon(started).encode(), of=bill), []
        return self.answer("MDOC", bill, last, missing=missing)

    def put(self, reference, listed, data):
        begun = self.begun(reference)
        if begun is None:
            return {"reply": "UNKNOWN_REFERENCE"}, []
        bill, last = begun.bill, begun.chain[-1].name
        piece = next((it for it in begun.manifest["documents"] if it["checksum"] == listed), None)
        if piece is None:
            return self.answer("INCD", bill, last, reason="NOT_LISTED")
        if (piece["size"], piece["checksum"]) != (len(data), checksum(data)):
            return self.answer("INCD", bill, last, reason="BYTES")
        if data not in self.stored(bill).values():
            self.records.append(Record("STORED", bill=bill, entry=last, data=data))
        return {"reply": "STORED"}, []

    def finish(self, reference):
        begun = self.begun(reference)
        if begun is None:
            return {"reply": "UNKNOWN_REFERENCE"}, []
        return self.judge(begun, at_start=False)

    def hear(self, bill, data, of_start):
        """A reply of another platform."""
        place = self.place(bill)
        if place.tag != "PARTING":
            return {"reply": "IGNORED", "reason": "NOT_PARTING"}, []
        if of_start and data.startswith(b"{"):
            return self.hear_started(bill, place.link, data)
        to = destination(place.known + [place.link])
        try:
            found = verified(data.decode("ascii"), MOST_RESPONSE)
        except UnicodeDecodeError:
            found = None
        if found is None or found[0] != to:
            return {"reply": "IGNORED", "reason": "SIGNATURE"}, []
        response = response_in(found[1])
        if response is None:
            return {"reply": "IGNORED", "reason": "FORM"}, []
        if response.get("last") != place.link.name:
            return {"reply": "IGNORED", "reason": "OTHER_ENTRY"}, []
        if response["responseCode"] in ("RECE", "DUPE"):
            self.records.append(Record("SETTLED", bill=bill, entry=place.link.name))
        elif response["standing"]:
            self.records.append(Record("REGAINED", bill=bill, entry=place.link.name))
        else:
            return {"reply": "IGNORED", "reason": "PASSING"}, []
        return self.done(bill)

    def hear_started(self, bill, link, data):
        started = started_in(data)
        if started is None:
            return {"reply": "IGNORED", "reason": "FORM"}, []
        reference, named = started
        if reference != reference_of(bill, link.name):
            return {"reply": "IGNORED", "reason": "REFERENCE"}, []
        parted = [r for r in self.of_bill(bill) if r.kind == "PARTED"][-1]
        to = destination(self.place(bill).known + [link])
        there = self.stored(bill)
        front = {"to": to, "bill": bill, "reference": reference}
        messages = [dict(front, kind="PUT", checksum=it["checksum"], data=there[it["checksum"]])
                    for it in parted.manifest["documents"] if it["checksum"] in named]
        return self.done(bill)[0], messages + [dict(front, kind="FINISH", data=b"")]

    def resend(self, bill):
        place = self.place(bill)
        if place.tag != "PARTING":
            return {"reply": "NOT_PARTING", "place": place.tag}, []
        return self.done(bill)[0], [self.start(bill)]


def parting_texts(own, theirs):
    """The texts at which two chains part."""
    at = next((i for i, (a, b) in enumerate(zip(own, theirs)) if a.name != b.name), min(len(own), len(theirs)))
    texts = {"own": own[at:at + 1] or own[-1:], "theirs": theirs[at:at + 1] or theirs[-1:]}
    return {name: links[0].text for name, links in texts.items() if links}


# ---- the world

class World:
    """The platforms of a roster, what they sent, and the bills that the script signed."""

    def __init__(self, roster):
        self.roster, self.sent, self.signed, self.events = roster, [], [], 0
        self.shards = {(p, i): Shard(p, roster) for p in roster.platforms for i in range(SHARDS)}

    def shard(self, at, first_byte):
        return self.shards[at, int(first_byte, 16) % SHARDS]

    def shard_of(self, at, bill):
        return self.shard(at, bill[:2])

    def bill(self, named):
        """The name of a bill that is named or numbered; None where there is none yet."""
        if isinstance(named, str):
            return named
        return self.signed[named - 1] if named <= len(self.signed) else None

    def parcel(self, number):
        return self.sent[number - 1] if number <= len(self.sent) else None

    def step(self, event):
        """The answer line of an event."""
        answer, messages, at, sender, kind = self.happens(event)
        before = len(self.sent)
        self.sent += [dict(it, **{"from": at}) for it in messages]
        self.sent += self.reply_of(answer, at, sender, kind)
        self.events += 1
        if event.get("do") == "SIGN" and answer["reply"] == "DONE":
            self.signed.append(answer["view"]["bill"])
        row = {name: it for name, it in answer.items() if name not in ("text", "of")}
        if "view" in row:
            row["view"] = dict(row["view"], bill=self.shown(row["view"]["bill"]))
        return canon(dict(row, event=self.events, sent=list(range(before + 1, len(self.sent) + 1))))

    def shown(self, bill):
        return self.signed.index(bill) + 1 if bill in self.signed else bill

    def reply_of(self, answer, at, sender, kind):
        """The reply of a platform as a parcel: a list of one, or of none."""
        if "text" not in answer or kind not in ("START", "PUT", "FINISH"):
            return []
        content = {"kind": "START_REPLY" if kind == "START" else "FINISH_REPLY", "from": at, "data": answer["text"]}
        if sender is not None:
            return [dict(content, to=sender["from"], bill=sender["bill"])]
        return [dict(content, to=None, bill=answer["of"] or NOBODYS_BILL)]

    def happens(self, event):
        """(answer, messages, the platform that was asked, the parcel that was delivered, the kind of request)."""
        return getattr(self, "at_" + mark_of(event))(event)

    @staticmethod
    def at_once(reply, **members):
        return dict(members, reply=reply), [], None, None, None

    def at_do(self, event):
        at = event["at"]
        if event["do"] == "SIGN":
            whole = document_fault(event["document"]) is None
            first = bill_of(event["document"])[:2] if whole else "00"
            shard, bill = self.shard(at, first), None
        else:
            bill = self.bill(event["bill"])
            if bill is None:
                return self.at_once("NO_BILL")
            shard = self.shard_of(at, bill)
        return (*shard.command(event["party"], event.get("now", 0), event, bill), at, None, "COMMAND")

    def at_deliver(self, event):
        parcel = self.parcel(event["deliver"])
        at = event.get("at") or (parcel and parcel["to"])
        if parcel is None or at is None:
            return self.at_once("NO_MESSAGE")
        return (*self.asked(at, parcel), at, parcel, parcel["kind"])

    def at_foreign(self, event):
        at, kind = event["at"], event["foreign"]
        parcel = {"kind": kind}
        if kind == "START":
            parcel["data"] = event["body"].encode()
        elif kind == "PUT":
            parcel.update(reference=reference_in(event["reference"]), checksum=event["checksum"],
                          data=bytes_in(event["bytes"]))
        elif kind == "FINISH":
            parcel["reference"] = reference_in(event["reference"])
        else:
            parcel.update(bill=self.bill(event["bill"]), data=event["text"].encode())
            if parcel["bill"] is None:
                return self.at_once("NO_BILL")
        return (*self.asked(at, parcel), at, None, kind)

    def asked(self, at, parcel):
        """What a platform replies to a message, whoever brings it."""
        kind = parcel["kind"]
        if kind == "START":
            body = body_in(parcel["data"])
            whole = body is not None and document_fault(body["document"]) is None
            return self.shard(at, bill_of(body["document"])[:2] if whole else "00").take_start(parcel["data"])
        if kind == "PUT":
            return self.shard(at, parcel["reference"][:2]).put(parcel["reference"], parcel["checksum"], parcel["data"])
        if kind == "FINISH":
            return self.shard(at, parcel["reference"][:2]).finish(parcel["reference"])
        return self.shard_of(at, parcel["bill"]).hear(parcel["bill"], parcel["data"], kind == "START_REPLY")

    def at_restart(self, event):
        return self.at_once("OPENED")

    def at_resend(self, event):
        bill = self.bill(event["bill"])
        if bill is None:
            return self.at_once("NO_BILL")
        return (*self.shard_of(event["at"], bill).resend(bill), event["at"], None, "RESEND")

    def at_ask(self, event):
        bill = self.bill(event["bill"])
        if bill is None:
            return self.at_once("NO_BILL")
        return (*self.shard_of(event["at"], bill).done(bill), event["at"], None, "ASK")

    def at_show(self, event):
        parcel = self.parcel(event["show"])
        if parcel is None:
            return self.at_once("NO_MESSAGE")
        shown = {"kind": parcel["kind"], "from": parcel["from"], "bytes": base64.b64encode(parcel["data"]).decode()}
        if parcel["to"] is not None:
            shown["to"] = parcel["to"]
        return self.at_once("SHOWN", **shown)

    def bill_line(self, number, bill):
        shards = [self.shard_of(p, bill) for p in self.roster.platforms]
        chains = [chain for shard in shards for chain in shard.accepted(bill)]
        line = max([[], *chains], key=len)
        signer = next(s.me for s in shards if any(r.kind == "SIGNED" for r in s.of_bill(bill)))
        end = destination(line) if line else signer
        place = self.shard_of(end, bill).place(bill)
        further = []
        if [link.name for link in place.known] == [link.name for link in line]:
            if place.tag == "HELD":
                further = place.since
            elif place.tag == "PARTING":
                further = place.link.entry["transactions"][:-1]
        row = {"acts": [s.me for s in shards if s.may_act(bill)], "bill": number, "end": end, "entries": len(line),
               "forked": any(not (is_prefix(a, b) or is_prefix(b, a) or _same(a, b)) for a in chains for b in chains)}
        title = fold(transactions_of(line) + further)
        if title is not None:
            row.update(holder=title.holder, possessor=title.possessor, state=title.state)
        return canon(row)

    def bill_lines(self):
        return [self.bill_line(number, bill) for number, bill in enumerate(self.signed, 1)]


def _same(a, b):
    return [link.name for link in a] == [link.name for link in b]


def run(script):
    """(the lines that a script writes, the number of its first bad line or None)."""
    lines = script.split(b"\n")
    if lines[-1] == b"":
        lines.pop()
    roster = roster_in(lines[0]) if lines else None
    if roster is None:
        return [], 1
    world, written = World(roster), []
    for number, line in enumerate(lines[1:], 2):
        event = event_in(roster, line) if number <= MOST_LINES else None
        if event is None:
            return written, number
        written.append(world.step(event))
    return written + world.bill_lines(), None


def text_of(script):
    """What a good script writes."""
    lines, bad = run(script)
    assert bad is None, bad
    return "".join(line + "\n" for line in lines).encode()
