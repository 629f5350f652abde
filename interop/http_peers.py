#!/usr/bin/env python3
"""Talks to the program http_trial over sockets on loopback: curl, Python's http.client, and 10,000 mutated sessions.

The lines of docs/http.md are run as they are there, and their replies compared. Each mutated session is sent whole and
once more in pieces: both times the replies are whole, and the same. The last line is 'N passed, M failed', and the
exit is 1 if something failed.
"""
import http.client
import os
import random
import re
import shlex
import socket
import subprocess
import sys
import time

sys.path.insert(0, os.path.join(os.path.dirname(os.path.dirname(os.path.abspath(__file__))), "tools"))
from program import TOP, proved, words_of  # noqa: E402

BILL = "44" * 32
REFERENCE = "11111111-1111-1111-1111-111111111111"
FINISH = "/v3/envelopes/%s/finish-transfer" % REFERENCE
DOCUMENT = "/v3/envelopes/%s/additional-documents/%s" % (REFERENCE, BILL)
VALIDATION = b'{"party":"BETA/IMPORT"}'
SESSIONS = 10_000
WAIT = 20

passed = failed = 0


def check(name, got, wanted):
    global passed, failed
    if got == wanted:
        passed += 1
    else:
        failed += 1
        print("%s: %r instead of %r" % (name, got, wanted))


class Server:
    """The program, which serves so many links; `end` tells how the next of them ended."""

    def __init__(self, program, links, *outcomes):
        self.process = subprocess.Popen([program, "serve", "127.0.0.1:0", str(links), *outcomes],
                                        stdout=subprocess.PIPE, text=True)
        line = self.process.stdout.readline()
        self.port = int(re.fullmatch(r"serving 127\.0\.0\.1:(\d+)\n", line).group(1))

    def end(self):
        return self.process.stdout.readline().strip()

    def close(self):
        return self.process.wait(timeout=WAIT)


# ---- curl

# Words, the status, and the version that curl is told.
CURL = (
    (["-d", "{}", "/v3/envelopes"], 201),
    (["-X", "PUT", "--data-binary", "x" * 100_000, DOCUMENT], 204),
    (["-X", "PUT", FINISH], 200),
    (["-X", "PUT", FINISH], 409),
    (["-X", "PUT", FINISH], 422),
    (["/v3/bills/" + BILL], 200),
    (["-d", VALIDATION.decode(), "/v3/receiver-validation"], 200),
    (["-H", "Expect: 100-continue", "-d", VALIDATION.decode(), "/v3/receiver-validation"], 200),
    (["-X", "PUT", FINISH], 404),
    (["--http1.0", "-X", "PUT", FINISH], 404),
    (["/v3/none"], 404),
    (["-X", "DELETE", "/v3/envelopes"], 405),
    (["-X", "POST", "/v3/envelopes"], 411),
    (["-X", "POST", "-H", "Content-Length: 4194305", "/v3/envelopes"], 413),
    (["-H", "Transfer-Encoding: chunked", "-d", "x", "/v3/envelopes"], 501),
    (["-d", "{}", "/v3/receiver-validation"], 400),
    (["-H", "X: " + "x" * 16_384, "/v3/none"], 400),
)


def with_curl(program):
    server = Server(program, len(CURL), "STARTED", "STORED", "RECE", "DISE", "BENV", "DONE")
    for words, status in CURL:
        url = "http://127.0.0.1:%d%s" % (server.port, words[-1])
        ended = subprocess.run(["curl", "-s", "-m", str(WAIT), "-o", os.devnull, "-w", "%{http_code} %{http_version}",
                                *words[:-1], url], stdout=subprocess.PIPE, text=True)
        name = "curl " + " ".join(words)[:100]
        check(name, (ended.returncode, ended.stdout), (0, "%d 1.1" % status))
        check(name + ", the link's end", server.end(), "Closed")
    check("curl's server", server.close(), 0)


def with_the_page(program):
    """The lines of docs/http.md, each with its reply."""
    with open(os.path.join(TOP, "docs", "http.md"), encoding="utf-8") as file:
        block = re.search(r"```\n(\$ crates/http_trial.*?)```", file.read(), re.S).group(1)
    lines = re.split(r"^\$ ", block, flags=re.M)[1:]
    words = shlex.split(lines[0].rstrip("&\n "))
    server = Server(program, *words[3:])
    for line in lines[1:]:
        asked, reply = line.split("\n", 1)
        asked = asked.replace(words[2], "127.0.0.1:%d" % server.port)
        ended = subprocess.run(shlex.split(asked), stdout=subprocess.PIPE, timeout=WAIT)
        check(asked, ended.stdout.decode().replace("\r\n", "\n").rstrip("\n"), reply.rstrip("\n"))
        check(asked + ", the link's end", server.end(), "Closed")
    check("the page's lines", len(lines), 1 + int(words[3]))
    check("the page's server", server.close(), 0)


# ---- http.client

KEPT = (
    ("GET", "/v3/bills/" + BILL, None, 200, 104),
    ("POST", "/v3/envelopes", b"{}", 201, 131),
    ("PUT", DOCUMENT, b"x" * 4_194_304, 204, 0),
    ("PUT", FINISH, b"", 409, 5),
    ("PUT", FINISH, b"", 404, 0),
    ("POST", "/v3/receiver-validation", VALIDATION, 200, 14),
    ("POST", "/v3/receiver-validation", b'{"party":"BETA/OTHER"}', 200, 15),
    ("POST", "/v3/holder-commands", b'{"bill":"%s","do":"ISSUE","party":"BETA/IMPORT"}' % BILL.encode(), 507, 0),
)


def with_http_client(program):
    """One link for all requests; then each refusal, after which the server closes the link."""
    server = Server(program, 1, "DONE", "STARTED", "STORED", "DISE", "UNKNOWN_REFERENCE", "FULL")
    link = http.client.HTTPConnection("127.0.0.1", server.port, timeout=WAIT)
    link.connect()
    first = link.sock
    for method, path, body, status, length in KEPT:
        link.request(method, path, body)
        reply = link.getresponse()
        check("http.client %s %s" % (method, path), (reply.status, len(reply.read())), (status, length))
    check("http.client's one link", link.sock is first, True)
    link.close()
    check("http.client's link's end", server.end(), "Closed")
    check("http.client's server", server.close(), 0)


REFUSED = (
    ("POST", "/v3/receiver-validation", b"{}", {}, 400),
    ("GET", "/v3/bills/" + BILL.replace("4", "F"), None, {}, 404),
    ("DELETE", "/v3/envelopes", None, {}, 405),
    ("POST", "/v3/envelopes", None, {"Content-Length": "4194305"}, 413),
    # Only the head is sent: the server closes the link at once, while further pieces would be under way.
    ("POST", "/v3/envelopes", None, {"Transfer-Encoding": "chunked"}, 501),
)


def refused_http_client(program):
    server = Server(program, len(REFUSED))
    for method, path, body, headers, status in REFUSED:
        link = http.client.HTTPConnection("127.0.0.1", server.port, timeout=WAIT)
        link.request(method, path, body, headers)
        reply = link.getresponse()
        check("http.client %s %s %d" % (method, path, status), (reply.status, reply.read(), reply.will_close),
              (status, b"", True))
        link.close()
        check("http.client %d, the link's end" % status, server.end(), "Closed")
    check("http.client's server of refusals", server.close(), 0)


# ---- mutated sessions

SESSION = (
    b"POST /v3/receiver-validation HTTP/1.1\r\nHost: x\r\nContent-Length: 23\r\n\r\n" + VALIDATION
    + b"PUT " + FINISH.encode() + b" HTTP/1.1\r\nContent-Length: 0\r\n\r\n"
    + b"GET /v3/bills/" + BILL.encode() + b" HTTP/1.1\r\nConnection: close\r\n\r\n")
BYTES = (0, 9, 10, 13, 32, 37, 44, 47, 48, 57, 58, 63, 123, 255)
LINES = (b"Transfer-Encoding: chunked", b"Content-Length: 4194305", b"content-length: 23", b"Content-Length: 0",
         b"Connection: close", b"Connection: keep-alive", b"Expect: 100-continue", b"Host: x", b"")


def mutated(maker, text):
    """The text with a few bytes changed, left out, doubled, put in or moved to the end, or with a line put in."""
    text = bytearray(text)
    for _ in range(maker.randint(1, 4)):
        at, size = maker.randrange(len(text) + 1), maker.randint(1, 30)
        kind = maker.randrange(6)
        if kind == 0 and at < len(text):
            text[at] = maker.randrange(256)
        elif kind == 1:
            del text[at:at + size % 8 + 1]
        elif kind == 2:
            text[at:at] = text[at:at + size]
        elif kind == 3:
            text[at:at] = bytes([maker.choice(BYTES)])
        elif kind == 4:
            text[at:] = text[at + size:] + text[at:at + size]
        else:
            line = text.find(b"\n", at) + 1
            text[line:line] = maker.choice(LINES) + b"\r\n"
    return bytes(text)


def pieces(maker, text):
    at = 0
    while at < len(text):
        size = maker.randint(1, 80)
        yield text[at:at + size]
        at += size


def exchange(port, parts):
    """What comes back for these pieces, up to the end of the link."""
    with socket.create_connection(("127.0.0.1", port), timeout=WAIT) as link:
        link.setsockopt(socket.IPPROTO_TCP, socket.TCP_NODELAY, 1)
        try:
            for part in parts:
                link.sendall(part)
            link.shutdown(socket.SHUT_WR)
        except TimeoutError:
            raise
        except OSError:
            # The server closed the link behind its last reply, which is still to be received.
            pass
        came = []
        try:
            while part := link.recv(65536):
                came.append(part)
        except ConnectionResetError:
            pass
        return b"".join(came)


REPLY = re.compile(rb"HTTP/1\.1 (200 OK|204 No Content|201 Created|400 Bad Request|404 Not Found|405 Method Not Allowed|"
                   rb"409 Conflict|411 Length Required|413 Payload Too Large|501 Not Implemented)\r\n"
                   rb"(?:content-type: application/(?:json|jose)\r\n)?"
                   rb"(?:content-length: (\d+)\r\n)?(connection: close\r\n)?\r\n")


def statuses(came):
    """The statuses of whole replies one behind another, of which only the last closes the link; None otherwise."""
    found, at, closed = [], 0, False
    while at < len(came):
        reply = REPLY.match(came, at)
        if closed or not reply:
            return None
        at = reply.end() + int(reply.group(2) or 0)
        closed = reply.group(3) is not None
        found.append(reply.group(1)[:3].decode())
    return found if at == len(came) else None


def with_mutations(program, seed):
    print("seed %d" % seed, flush=True)
    maker = random.Random(seed)
    server = Server(program, 2 * SESSIONS)
    counts, ends, strange = {}, {}, 0
    begun = time.monotonic()
    for _ in range(SESSIONS):
        text = mutated(maker, SESSION)
        whole = exchange(server.port, [text])
        end = server.end()
        again = exchange(server.port, pieces(maker, text))
        found = statuses(whole)
        if found is None or again != whole or server.end() != end:
            strange += 1
            print("strange: %r came back for %r, and in pieces %r" % (whole, text, again))
        for status in found or ():
            counts[status] = counts.get(status, 0) + 1
        ends[end] = ends.get(end, 0) + 1
    check("mutated sessions with strange replies", strange, 0)
    check("ends of mutated sessions", set(ends) <= {"Closed", "Cut"}, True)
    check("the server after mutated sessions", server.close(), 0)
    print("%d mutated sessions, each sent twice, in %.0f s: replies %s; ends %s" % (
        SESSIONS, time.monotonic() - begun, dict(sorted(counts.items())), dict(sorted(ends.items()))))


def main():
    words = words_of(__doc__)
    words.add_argument("--seed", type=int, default=time.time_ns() % 1_000_000, help="the clock's unless it is given")
    words.add_argument("program", nargs="?", help="a program that is built already; otherwise it is proved and built")
    given = words.parse_args()
    program, seed = given.program or proved("http_trial"), given.seed
    with_the_page(program)
    with_curl(program)
    with_http_client(program)
    refused_http_client(program)
    with_mutations(program, seed)
    print("%d passed, %d failed" % (passed, failed))
    return 1 if failed else 0


if __name__ == "__main__":
    sys.exit(main())
