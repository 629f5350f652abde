"""Inputs for measuring: documents, entries, manifests, chains and bodies, signed by the platforms' test keys."""
import base64
import hashlib
import hmac
import json

DOCUMENT = {"carrierCode": "OCNL", "carrierCodeListProvider": "NMFTA", "isToOrder": True,
            "transportDocumentReference": "OCNL0000001", "transportDocumentTypeCode": "BOL"}


def canonical(value):
    return json.dumps(value, separators=(",", ":"), sort_keys=True, ensure_ascii=False).encode()


def name(data):
    return hashlib.sha256(data).hexdigest()


def part(data):
    return base64.urlsafe_b64encode(data).rstrip(b"=")


def signed(platform, payload):
    """A text in the compact layout (RFC 7515) by the platform's test key."""
    key = hashlib.sha256(b"EBL-TEST-KEY-" + platform.encode()).digest()
    text = part(canonical({"alg": "HS256", "kid": platform})) + b"." + part(canonical(payload))
    return text + b"." + part(hmac.new(key, text, hashlib.sha256).digest())


def container(number):
    return {"weight": {"value": 24000 + number, "unit": "KGM"}, "equipmentReference": "OCNU%07d" % number,
            "seals": [{"number": "SEAL%05d" % number, "source": "CAR"}], "isShipperOwned": number % 2 == 0,
            "description": "Ball bearings \u2013 \"steel\", packed\nin crates"}


def document(containers):
    """A transport document with so many containers."""
    return dict(DOCUMENT, utilizedTransportEquipments=[container(k) for k in range(containers)])


def entry(bill, at, transactions=1, previous=None):
    """The entry at a place of a chain between two platforms; its transactions hand over to and fro."""
    here, there = ("ALPH", "BETA") if at % 2 == 0 else ("BETA", "ALPH")
    moves = [{"actor": here + "/EXPORT", "kind": "TRANSFER", "recipient": there + "/EXPORT", "time": at}
             for _ in range(transactions)]
    made = {"attempt": 1, "bill": bill, "platform": here, "transactions": moves}
    return dict(made, previous=previous) if previous else made


def chain(bill, entries, transactions=1):
    """The signed texts of a chain of so many entries."""
    texts, previous = [], None
    for at in range(entries):
        made = entry(bill, at, transactions, previous)
        texts.append(signed(made["platform"], made))
        previous = name(texts[-1])
    return texts


def manifest(bill, last, documents=0):
    listed = [{"checksum": name(b"%d" % k), "media": "application/pdf", "name": "document %d.pdf" % k, "size": 1000 + k}
              for k in range(documents)]
    return {"bill": bill, "documents": listed, "last": last}


def body(entries, containers=0):
    """The canonical body of a Start with so many entries, and a document with so many containers."""
    paper = document(containers) if containers else DOCUMENT
    bill = name(canonical(paper))
    texts = chain(bill, entries)
    last = signed("ALPH", manifest(bill, name(texts[-1])))
    return canonical({"chain": [text.decode() for text in texts], "document": paper, "manifest": last.decode()})
