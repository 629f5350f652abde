#!/usr/bin/env python3
"""Exchanges of pint_client with Python's http.server over sockets on loopback, by the program http_trial.

The server answers each message in several ways; what it was asked, and what the program printed, are compared with what
they must be. The last line is 'N passed, M failed', and the exit is 1 if something failed.
"""
import http.server
import os
import subprocess
import sys
import threading

sys.path.insert(0, os.path.join(os.path.dirname(os.path.dirname(os.path.abspath(__file__))), "tools"))
from program import proved, words_of  # noqa: E402

REFERENCE = "0a0a0a0a-0a0a-0a0a-0a0a-0a0a0a0a0a0a"
PATHS = {
    "start": ("POST", "/v3/envelopes"),
    "put": ("PUT", "/v3/envelopes/%s/additional-documents/%s" % (REFERENCE, "0b" * 32)),
    "finish": ("PUT", "/v3/envelopes/%s/finish-transfer" % REFERENCE),
}
MESSAGES = (("start", 0), ("start", 100_000), ("put", 2_097_152), ("finish", 7))
WAIT = 60


class Handler(http.server.BaseHTTPRequestHandler):
    """Keeps what it was asked, and answers as the case says."""

    protocol_version = "HTTP/1.1"
    case = None
    asked = None

    def answer(self):
        length = int(self.headers["content-length"])
        body = self.rfile.read(length)
        Handler.asked = (self.command, self.path, self.headers.items(), body)
        status, size, fields, closes = Handler.case
        self.close_connection = closes
        try:
            self.send_response(status)
            for name, value in fields:
                self.send_header(name, value)
            self.end_headers()
            self.wfile.write(b"y" * size)
        except ConnectionError:
            # The client refused the reply by its head, and hung up.
            self.close_connection = True

    do_POST = do_PUT = answer

    def log_message(self, *words):
        pass


# status, bytes of the body, further fields, whether the server closes, what the program prints
CASES = (
    (200, 5, [("Content-Length", "5")], False, "200 5"),
    (201, 0, [("Content-Length", "0")], False, "201 0"),
    (204, 0, [], False, "204 0"),
    (404, 17, [("content-LENGTH", "17"), ("Connection", "close")], True, "404 17"),
    (409, 4_194_304, [("Content-Length", "4194304")], False, "409 4194304"),
    (200, 5, [("Content-Length", "4194305")], True, "bad reply"),
    (200, 5, [("Content-Length", "6")], True, "bad reply"),
    (200, 5, [], True, "bad reply"),
    (200, 0, [("Transfer-Encoding", "chunked")], True, "bad reply"),
    (200, 5, [("Content-Length", "5"), ("Content-Length", "05")], True, "bad reply"),
    (200, 1, [("Content-Length", "1"), ("X-Long", "z" * 16_000)], False, "200 1"),
    (200, 1, [("Content-Length", "1"), ("X-Long", "z" * 16_384)], True, "bad reply"),
)


def main():
    words = words_of(__doc__)
    words.add_argument("program", nargs="?", help="a program that is built already; otherwise it is proved and built")
    program = words.parse_args().program or proved("http_trial")
    server = http.server.ThreadingHTTPServer(("127.0.0.1", 0), Handler)
    threading.Thread(target=server.serve_forever, daemon=True).start()
    address = "127.0.0.1:%d" % server.server_address[1]
    failed = 0
    for kind, size in MESSAGES:
        body = b"" if kind == "finish" else b"x" * size
        wanted = PATHS[kind] + ([("host", "pint"), ("content-length", str(len(body)))], body)
        for case in CASES:
            Handler.case, Handler.asked = case[:4], None
            ended = subprocess.run([program, "ask", address, kind, str(size)],
                                   stdout=subprocess.PIPE, text=True, timeout=WAIT)
            if ended.stdout != case[4] + "\n" or Handler.asked != wanted:
                failed += 1
                print("%s %d, status %d %s: printed %r and must print %r; asked as it must: %s" % (
                    kind, size, case[0], case[2][:1], ended.stdout, case[4], Handler.asked == wanted))
    print("%d passed, %d failed" % (len(MESSAGES) * len(CASES) - failed, failed))
    return 1 if failed else 0


if __name__ == "__main__":
    sys.exit(main())
