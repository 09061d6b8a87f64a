"""A client of a language server over standard streams, for tests, and the server that it asks: build/m2, or the program that M2 names."""
import json
import os
import queue
import subprocess
import threading
import urllib.parse

TOP = os.path.dirname(os.path.dirname(os.path.dirname(os.path.abspath(__file__))))
M2 = os.path.abspath(os.environ.get("M2", f"{TOP}/build/m2"))
LIBRARY = f"{TOP}/lib"
# How many seconds an answer may take. A server that is well answers in a fraction of one.
PATIENCE = int(os.environ.get("PATIENCE", "120"))
# no other folder is searched for modules than those that a row names
VARIABLES = {**os.environ, "M2_LIB": ""}


class Gone(Exception):
    """The server ended, or did not answer in time."""


def message(body):
    return b"Content-Length: %d\r\n\r\n%s" % (len(body), body)


def bytes_of(value):
    """The bytes of a message."""
    return message(json.dumps(value, ensure_ascii=False, separators=(",", ":")).encode())


def read_body(stream):
    """The body of the next message, or None where the stream ends."""
    length = 0
    while True:
        line = stream.readline()
        if not line:
            return None
        if line == b"\r\n":
            break
        name, _, value = line.partition(b":")
        if name.lower() == b"content-length":
            length = int(value)
    body = stream.read(length)
    return body if len(body) == length else None


def read_bodies(stream, bodies):
    """Puts the body of each message into a queue, and None at the end."""
    try:
        while (body := read_body(stream)) is not None:
            bodies.put(body)
    finally:
        bodies.put(None)


def uri_of(path):
    """The address of a file. Each byte of a path but for ASCII letters, digits and the signs / - . _ ~ is escaped."""
    return "file://" + urllib.parse.quote(path)


class Client:
    """A server that runs, the requests that it was sent, and what it published."""

    # the servers that were not let go yet
    running = []

    def __init__(self, command, folder, patience=PATIENCE):
        pipe = subprocess.PIPE
        self.process = subprocess.Popen(command, cwd=folder, env=VARIABLES, stdin=pipe, stdout=pipe, stderr=pipe)
        self.bodies = queue.Queue()
        self.folder = folder
        self.patience = patience
        self.number = 0
        self.marks = 0
        self.published = {}
        self.running.append(self)
        threading.Thread(target=read_bodies, args=(self.process.stdout, self.bodies), daemon=True).start()

    def send_bytes(self, raw):
        self.process.stdin.write(raw)
        self.process.stdin.flush()

    def send(self, value):
        self.send_bytes(bytes_of(value))

    def notify(self, method, params):
        self.send({"jsonrpc": "2.0", "method": method, "params": params})

    def take_body(self):
        """The body of the next message, as it came and as it is read. What is published is kept."""
        try:
            body = self.bodies.get(timeout=self.patience)
        except queue.Empty:
            raise Gone("no answer in time") from None
        if body is None:
            raise Gone("the server ended")
        value = json.loads(body)
        if value.get("method") == "textDocument/publishDiagnostics":
            self.published[value["params"]["uri"]] = value["params"]
        return body, value

    def take(self):
        """The next message. What is published is kept."""
        return self.take_body()[1]

    def all_for(self, raw):
        """The bodies of all messages that come back for these bytes. The server reads what came together, answers it, and then says what is
        refused. So of two requests behind the bytes, of which the second is sent when the first one is answered, the second is answered last."""
        self.send_bytes(raw)
        bodies = []
        for _ in range(2):
            self.marks += 1
            mark = f"mark {self.marks}"
            self.send({"jsonrpc": "2.0", "id": mark, "method": "$/mark"})
            body, value = self.take_body()
            while value.get("id") != mark:
                bodies.append(body.decode())
                body, value = self.take_body()
        return bodies

    def ask(self, method, params):
        """The answer to a request: its result, or its error."""
        self.number += 1
        self.send({"jsonrpc": "2.0", "id": self.number, "method": method, "params": params})
        return self.answer(self.number)

    def answer(self, number):
        while True:
            value = self.take()
            if "method" not in value and value.get("id") == number:
                return value

    def result(self, method, params):
        answer = self.ask(method, params)
        if "error" in answer:
            raise Gone(f"{method}: {answer['error']}")
        return answer["result"]

    def uri(self, name):
        """The address of a file of the folder. A name that is an address stays as it is."""
        return name if ":" in name else uri_of(os.path.join(self.folder, name))

    def open(self, name, text, version=1):
        self.notify("textDocument/didOpen", {"textDocument": {"uri": self.uri(name), "languageId": "modula2", "version": version, "text": text}})

    def change(self, name, version, changes):
        self.notify("textDocument/didChange", {"textDocument": {"uri": self.uri(name), "version": version}, "contentChanges": changes})

    def at(self, name, line, character, **more):
        return {"textDocument": {"uri": self.uri(name)}, "position": {"line": line, "character": character}, **more}

    def diagnostics(self, name, version=None):
        """What is published of a text, of this version if one is named."""
        uri = self.uri(name)
        while uri not in self.published or (version is not None and self.published[uri].get("version") != version):
            self.take()
        return self.published[uri]["diagnostics"]

    def begin(self, encodings=("utf-16",), **more):
        capabilities = {**({"general": {"positionEncodings": list(encodings)}} if encodings else {}), **more.pop("capabilities", {})}
        result = self.result("initialize", {"processId": None, "rootUri": uri_of(self.folder), "capabilities": capabilities, **more})
        self.notify("initialized", {})
        return result

    def status(self):
        """The status with which the server ends."""
        return self.process.wait(self.patience)

    def end(self):
        """Ends the server in order. The status, and what it said on standard error."""
        self.result("shutdown", None)
        self.notify("exit", None)
        self.process.stdin.close()
        return self.status(), self.process.stderr.read()

    def kill(self):
        self.process.kill()
        self.process.wait()


def server(folder, *words, library=LIBRARY):
    """A server that runs in a folder."""
    return Client([M2, "lsp", "--lib", library, *words], folder)


def let_go():
    """Ends the servers that still run, as those of rows that went wrong, and closes their streams."""
    for client in Client.running:
        if client.process.poll() is None:
            client.kill()
        for stream in (client.process.stdin, client.process.stderr):
            try:
                stream.close()
            except OSError:
                pass
    Client.running.clear()
