"""A cache of builds for Bazel, by its protocol over HTTP. It keeps in memory what it is given."""
import contextlib
import http.server
import os
import re
import subprocess
import sys

PATH = re.compile(r"/(ac|cas)/[0-9a-f]{64}")
FOUND, WRONG, LACKING = 200, 400, 404
BUFFERED = -1


class Cache(http.server.BaseHTTPRequestHandler):
    protocol_version = "HTTP/1.1"
    wbufsize = BUFFERED
    kept = {}

    def answer(self, status, body=b""):
        self.send_response(status)
        self.send_header("Content-Length", str(len(body)))
        self.end_headers()
        self.wfile.write(body)

    def do_GET(self):
        body = self.kept.get(self.path)
        self.answer(LACKING if body is None else FOUND, body or b"")

    def do_PUT(self):
        body = self.rfile.read(int(self.headers["Content-Length"]))
        if PATH.fullmatch(self.path):
            self.kept[self.path] = body
        self.answer(FOUND if PATH.fullmatch(self.path) else WRONG)

    def log_message(self, *words):
        """Says nothing."""


@contextlib.contextmanager
def served(address, front):
    """Serves an empty cache at an address, by a process behind the words in front, and answers its place."""
    words = [*front, sys.executable, "-B", os.path.abspath(__file__), address]
    with subprocess.Popen(words, stdin=subprocess.DEVNULL, stdout=subprocess.PIPE, text=True) as server:
        try:
            yield f"http://{address}:{server.stdout.readline().strip()}"
        finally:
            server.terminate()


if __name__ == "__main__":
    with http.server.ThreadingHTTPServer((sys.argv[1], 0), Cache) as listening:
        print(listening.server_port, flush=True)
        listening.serve_forever()
