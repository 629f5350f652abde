#!/usr/bin/env python3
"""Signs texts with the derived test keys by joserfc (RFC 7515, HS256), or verifies texts by it."""
import hashlib
import os
import sys

sys.path.insert(0, os.path.join(os.path.dirname(os.path.dirname(os.path.abspath(__file__))), "tools"))
from program import words_of  # noqa: E402

try:
    from joserfc import jws
    from joserfc.jwk import OctKey
except ImportError:
    sys.exit("joserfc is not installed: nothing was signed")

PLATFORMS = ("ALPH", "BETA")

# In canonical JSON (RFC 8785), as the project writes payloads.
PAYLOADS = (
    "{}",
    '{"a":1,"b":[true,null,"\u20ac"]}',
    '{"n":-9007199254740991,"z":"\\n\\u001f\U0001f600"}',
)


def key_of(code):
    return OctKey.import_key(hashlib.sha256(b"EBL-TEST-KEY-" + code.encode()).digest())


def sign(code, payload):
    return jws.serialize_compact({"alg": "HS256", "kid": code}, payload.encode(), key_of(code))


def verified(text):
    parsed = jws.deserialize_compact(text, lambda parts: key_of(parts.headers()["kid"]))
    return parsed.headers()["kid"], parsed.payload.decode()


def main():
    words = words_of(__doc__)
    words.add_argument("--check", action="store_true", help="reads texts, one a line, and verifies each by its kid")
    if words.parse_args().check:
        for line in sys.stdin:
            print(*verified(line.strip()))
    else:
        for code in PLATFORMS:
            for payload in PAYLOADS:
                print(sign(code, payload))


if __name__ == "__main__":
    main()
