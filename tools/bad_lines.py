"""Lines of scripts, good and bad: each member of each event and of the roster in each form that it may have or not.

A row is (what it shows, the line, whether it is a line of a script). What is good and bad stands here by hand, after
the forms of docs/forms.md; values are written as JSON, so that a number's spelling counts.
"""
import json

ROSTER = {"platforms": '["ALPH","BETA"]', "parties": '["ALPH/CARRIER","ALPH/EXPORT","BETA/IMPORT"]',
          "carriers": '[{"provider":"NMFTA","code":"OCNL","party":"ALPH/CARRIER"}]'}

OBJECTS = ["[]", "{}", '["ALPH"]', '{"a":1}']
NO_TEXT = ["null", "true", "false", "0", "1", "1.5", *OBJECTS]
NO_NUMBER = ["null", "true", "false", '""', '"1"', *OBJECTS]


def texts(*values):
    return [json.dumps(value) for value in values]


UUID = "447816bf-8f01-cfea-4141-40de5dae2223"

# Of each form: values that have it, and values that don't.
FORMS = {
    "platform": (texts("ALPH", "BETA"), NO_TEXT + texts("", "ALP", "ALPHA", "alph", "AL-H", "\u00c4LPH", "OMEG")),
    "party": (texts("ALPH/CARRIER", "OMEG/X", "0000/" + "X" * 35, "ALPH/A-B_0"),
              NO_TEXT + texts("", "ALPH", "ALPH/", "ALPH/" + "X" * 36, "ALPH/a", "ALPH/A B", "/A", "ALP/AA", "ALPH//A",
                              " ALPH/A", "ALPH/A\n")),
    "moment": (["0", "-0", "1.0", "9007199254740991", "1000.000"],
               NO_NUMBER + ["-1", "1.5", "9007199254740992", "1e3", "-0.5"]),
    "number": (["1", "2.0", "9007199254740991"], NO_NUMBER + ["0", "-0", "-1", "1.5", "9007199254740992", "1e0"]),
    "bill": (["1", "1.0", "9007199254740991", *texts("0" * 64, "0123456789abcdef" * 4)],
             ["0", "-1", "1.5", "1e0", "null", "true", *OBJECTS, *texts("", "1", "a" * 63, "a" * 65, "A" * 64, "g" * 64)]),
    "checksum": (texts("0" * 64, "0123456789abcdef" * 4), NO_TEXT + texts("", "a" * 63, "a" * 65, "A" * 64, "g" * 64)),
    "reference": (texts(UUID, UUID.upper(), UUID.replace("-", ""), "{%s}" % UUID, "urn:uuid:" + UUID),
                  NO_TEXT + texts("", UUID[:-1], UUID + "0", "(%s)" % UUID, UUID.replace("-", "_"), "urn:" + UUID,
                                  "urn:uuid:" + UUID.replace("-", ""), "{%s}" % UUID.replace("-", ""),
                                  "g" + UUID[1:])),
    "text": (texts("", "x", "\u20ac", "{}"), NO_TEXT),
    "true": (["true"], ["null", "false", "0", "1", *texts("", "true"), *OBJECTS]),
    "value": (["null", "true", "1", "0.5", *texts("", "BOL"), *OBJECTS], ["1e0", "0.0000001", "9007199254740992"]),
    "base64": (texts("", "YQ==", "YWI=", "YWJj", "+/+/"),
               NO_TEXT + texts("YQ", "YQ=", "YR==", "YWJ=", "=", "====", "YW Jj", "_-_-", "YWJj\n", "YQ==YQ==")),
    "name": (texts("a", "a" * 128, "\u00e9" * 64, "\u0080", " "),
             NO_TEXT + texts("", "a" * 129, "\u00e9" * 64 + "a", "\u0000", "a\u001f", "\u007f", "a\n")),
    "media": (texts("a", "a" * 64, "\u00e9" * 32),
              NO_TEXT + texts("", "a" * 65, "\u00e9" * 32 + "a", "\u0000", "a\u001f", "\u007f", "a\n")),
}

# Of each event: the words that name it, and its other members with their forms; those with a '?' may be left out.
MEMBERS = {"at": "platform", "party": "party", "now": "moment?"}
COMMAND_KINDS = ["ISSUE", "ENDORSE", "TRANSFER", "SURRENDER_FOR_DELIVERY", "SURRENDER_FOR_AMENDMENT",
                 "SURRENDER_ACCEPTED", "SURRENDER_REFUSED"]
EVENTS = [({"do": '"SIGN"'}, dict(MEMBERS, document="value")),
          ({"do": '"ATTACH"'}, dict(MEMBERS, bill="bill", name="name", media="media", bytes="base64")),
          *[({"do": '"%s"' % kind}, dict(MEMBERS, bill="bill", recipient="party?")) for kind in COMMAND_KINDS],
          ({}, {"deliver": "number", "at": "platform?"}),
          ({}, {"restart": "platform"}),
          ({}, {"resend": "true", "at": "platform", "bill": "bill"}),
          ({}, {"ask": "true", "at": "platform", "bill": "bill"}),
          ({"foreign": '"START"'}, {"at": "platform", "body": "text"}),
          ({"foreign": '"PUT"'}, {"at": "platform", "reference": "reference", "checksum": "checksum",
                                  "bytes": "base64"}),
          ({"foreign": '"FINISH"'}, {"at": "platform", "reference": "reference"}),
          ({"foreign": '"START_REPLY"'}, {"at": "platform", "bill": "bill", "text": "text"}),
          ({"foreign": '"FINISH_REPLY"'}, {"at": "platform", "bill": "bill", "text": "text"}),
          ({}, {"show": "number"})]

NO_KINDS = NO_TEXT + texts("", "sign", "SIGNED", "RECALL", "DELIVER")
NO_FOREIGN = NO_TEXT + texts("", "start", "RECE", "SIGN")


def line(members):
    return ("{%s}" % ",".join('"%s":%s' % it for it in members.items())).encode()


def good_members(words, forms):
    return {**words, **{name: FORMS[form.rstrip("?")][0][0] for name, form in forms.items()}}


def event_rows():
    """Each event whole, without each of its members, and with each of them in each form."""
    for words, forms in EVENTS:
        members = good_members(words, forms)
        named = " ".join(words.values()) or next(iter(forms))
        yield named, line(members), True
        yield named + " with a further member", line({**members, "further": "null"}), True
        for word in words:
            for value in NO_KINDS if word == "do" else NO_FOREIGN:
                yield "%s with %s %s" % (named, word, value), line({**members, word: value}), False
        for name, form in forms.items():
            without = {other: value for other, value in members.items() if other != name}
            yield "%s without %s" % (named, name), line(without), form.endswith("?")
            for is_good, values in zip((True, False), FORMS[form.rstrip("?")]):
                for value in values:
                    yield "%s with %s %s" % (named, name, value), line({**members, name: value}), is_good


def mark_rows():
    """The first mark that an object has decides; what it has besides is ignored."""
    order = [{"do": '"ISSUE"', "at": '"ALPH"', "party": '"ALPH/CARRIER"', "bill": "1"}, {"deliver": "1"},
             {"restart": '"ALPH"'}, {"resend": "true", "at": '"ALPH"', "bill": "1"},
             {"ask": "true", "at": '"ALPH"', "bill": "1"}, {"foreign": '"FINISH"', "at": '"ALPH"',
                                                            "reference": '"%s"' % UUID}, {"show": "1"}]
    for at, members in enumerate(order):
        first = next(iter(members))
        for later in order[at + 1:]:
            mark = next(iter(later))
            yield "%s before %s" % (first, mark), line({mark: "null", **members}), True
            yield "%s null before %s" % (first, mark), line({**later, first: "null"}), False
    yield "no mark", b'{"at":"ALPH","bill":1}', False
    yield "show at a platform that isn't listed", b'{"show":1,"at":"OMEG"}', True
    yield "restart at a platform that isn't listed", b'{"restart":"ALPH","at":"OMEG"}', True


def json_rows():
    """Lines by what JSON they are."""
    event = b'{"show":1}'
    for what, text in (("white space", b" \t\r" + event + b" \r"), ("an escaped name", b'{"\\u0073how":1}'),
                       ("lists nested 126 deep", b'{"show":1,"x":%s%s}' % (b"[" * 126, b"]" * 126)),
                       ("decimals", b'{"show":1,"x":[0.000001,123456789012345,0.123456789012345,-1.50]}'),
                       ("an escaped pair", b'{"show":1,"x":"\\ud83d\\udea2"}')):
        yield what, text, True
    for what, text in (("an empty line", b""), ("a blank line", b" "), ("a byte order mark", b"\xef\xbb\xbf" + event),
                       ("no object", b"1"), ("a list", b"[]"), ("a text", b'"show"'), ("two values", event + event),
                       ("a comma", b'{"show":1,}'), ("no end", b'{"show":1'), ("a comment", b"/**/" + event),
                       ("a repeated name", b'{"show":1,"show":1}'), ("NaN", b'{"show":1,"x":NaN}'),
                       ("a repeated name that is ignored", b'{"show":1,"x":{"a":1,"\\u0061":1}}'),
                       ("an exponent that is ignored", b'{"show":1,"x":1e1}'), ("a form feed", b"\x0c" + event),
                       ("a number past 2^53 that is ignored", b'{"show":1,"x":9007199254740992}'),
                       ("sixteen digits that are ignored", b'{"show":1,"x":0.1234567890123456}'),
                       ("a small decimal that is ignored", b'{"show":1,"x":0.0000001}'),
                       ("a zero in front", b'{"show":01}'), ("a plus", b'{"show":+1}'), ("no digit", b'{"show":1.}'),
                       ("lists nested 127 deep", b'{"show":1,"x":%s%s}' % (b"[" * 127, b"]" * 127)),
                       ("a lone surrogate", b'{"show":1,"x":"\\ud800"}'), ("half a character", b'{"show":1,"x":"\xc3"}'),
                       ("a control character", b'{"show":1,"x":"\x01"}'), ("a null byte", event + b"\0"),
                       ("a name in single quotes", b"{'show':1}")):
        yield what, text, False


def roster_rows():
    """The first line whole, without each of its members, and with each of them in each form."""

    def roster(**changed):
        members = {**ROSTER, **changed}
        return line({"roster": line({name: it for name, it in members.items() if it}).decode()})

    yield "the roster", roster(), True
    yield "a roster with a further member", roster(further="null"), True
    yield "no member roster", b'{"do":"SIGN"}', False
    for value in ("null", "true", "1", '""', "[]", "{}"):
        yield "roster " + value, line({"roster": value}), False
    many = json.dumps(["ALPH/P%d" % at for at in range(1023)] + ["ALPH/CARRIER"])
    codes = [{"provider": "SMDG", "code": "C%d" % at, "party": "ALPH/CARRIER"} for at in range(65)]
    good = {"platforms": ['["ALPH","BETA","0000"]', json.dumps(["ALPH", "BETA"] + ["000%d" % at for at in range(6)])],
            "parties": ['["ALPH/CARRIER"]', many], "carriers": [json.dumps(codes[:64])]}
    bad = {"platforms": ["[]", '["ALPH","ALPH","BETA"]', '["alph"]', "[1]",
                         json.dumps(["ALPH", "BETA"] + ["000%d" % at for at in range(7)])],
           "parties": ["[]", '["ALPH/CARRIER","ALPH/CARRIER"]', '["ALPH/CARRIER","OMEG/X"]', '["ALPH/"]',
                       '["ALPH/EXPORT"]', many[:-1] + ',"ALPH/MORE"]'],
           "carriers": ["[]", json.dumps(codes), json.dumps(codes[:1] * 2), "[1]"]}
    for name in ROSTER:
        yield "a roster without " + name, roster(**{name: ""}), False
        for value in ["null", "true", "1", '""', "{}"] + bad[name]:
            yield "a roster with %s %s" % (name, value[:60]), roster(**{name: value}), False
        for value in good[name]:
            yield "a roster with %s %s" % (name, value[:60]), roster(**{name: value}), True
    carrier = {"provider": '"SMDG"', "code": '"OCNL"', "party": '"ALPH/CARRIER"'}
    forms = {"provider": (texts("NMFTA", "SMDG"), NO_TEXT + texts("", "smdg", "SCAC")),
             "code": (texts("A", "0", "OCNL"), NO_TEXT + texts("", "OCNLX", "ocnl", "A-B")),
             "party": (texts("ALPH/EXPORT", "BETA/IMPORT"), NO_TEXT + texts("", "ALPH/NOBODY", "ALPH"))}
    for name, (goods, bads) in forms.items():
        without = {other: value for other, value in carrier.items() if other != name}
        yield "a carrier without " + name, roster(carriers="[%s]" % line(without).decode()), False
        for is_good, values in ((True, goods), (False, bads)):
            for value in values:
                changed = "[%s]" % line({**carrier, name: value}).decode()
                yield "a carrier with %s %s" % (name, value), roster(carriers=changed), is_good


def later_rows():
    yield from event_rows()
    yield from mark_rows()
    yield from json_rows()
