"""Sessions with the language server: messages in, and what comes back; and streams with odd headers.

tools/server/sessions.json has the files that stand in a folder, tables of rows, and for each session the names of its tables. A row has
what is sent, and a part of all that comes back for it: nothing may come back if the part is empty, and anything if it is null. What is
sent is an object, to which the version of the protocol is added, or a body that is sent as it stands, or null: then the input ends. A
row with a status is the last one, and the server ends with it. ROOM stands for the address of the folder. A text may be a list of
lines, and any other string a list of its pieces. The tables that are named under "at once" are sent in one piece.
"""
import json
import os
import subprocess
from select import PIPE_BUF

from checks import check
from client import M2, PATIENCE, VARIABLES, bytes_of, message, server, uri_of

HERE = os.path.dirname(os.path.abspath(__file__))


def with_texts(value):
    """A value whose texts are whole."""
    if isinstance(value, list):
        return [with_texts(it) for it in value]
    if isinstance(value, dict):
        return {name: "\n".join(it) if name == "text" and isinstance(it, list) else with_texts(it) for name, it in value.items()}
    return value


def joined(pieces):
    return "".join(pieces) if isinstance(pieces, list) else pieces


def message_of(sent, room):
    """The bytes of what a row sends."""
    if isinstance(sent, str):
        return message(sent.encode())
    text = json.dumps({"jsonrpc": "2.0", **with_texts(sent)}, ensure_ascii=False, separators=(",", ":"))
    return message(text.replace("ROOM", uri_of(room)).encode())


def title_of(name, number, row):
    sent = row["send"].get("method") if isinstance(row["send"], dict) else row["send"]
    about = joined(row["about"]) if "about" in row else ""
    return f"session {name}, row {number}, {sent!r}: {about}"


def is_wanted(wanted, came, room):
    """Whether what came has this part."""
    if wanted is None:
        return True
    return joined(wanted).replace("ROOM", uri_of(room)) in came if wanted else came == ""


def end_session(client, title, row, room):
    """Sends the last message, or ends the input."""
    if row["send"] is None:
        client.process.stdin.close()
    else:
        client.send_bytes(message_of(row["send"], room))
    status = client.status()
    check(title, status == row["status"], (status, client.process.stderr.read()))


def send_at_once(client, name, rows, room):
    """Sends all rows in one piece, which is small enough that the server reads it at once: what is answered comes in front of what is
    refused then."""
    raw = b"".join(message_of(row["send"], room) for row in rows)
    bodies = client.all_for(raw)
    requests = [row["send"]["id"] for row in rows if "id" in row["send"]]
    front = [json.loads(it).get("id") for it in bodies[:len(requests)]]
    check(f"session {name}, what comes first", front == requests and len(raw) <= PIPE_BUF, bodies)
    answers = {json.loads(it).get("id"): it for it in bodies}
    for number, row in enumerate(rows, 1):
        if "id" in row["send"]:
            came = answers.get(row["send"]["id"], "")
            check(title_of(name, number, row), is_wanted(row["wanted"], came, room), came)


def send_one_by_one(client, name, rows, room):
    for number, row in enumerate(rows, 1):
        title = title_of(name, number, row)
        if "status" in row:
            end_session(client, title, row, room)
        else:
            came = "\n".join(client.all_for(message_of(row["send"], room)))
            check(title, is_wanted(row["wanted"], came, room), came)


def files_written(folder, files):
    for name, lines in files.items():
        os.makedirs(os.path.dirname(f"{folder}/{name}"), exist_ok=True)
        with open(f"{folder}/{name}", "w", encoding="utf-8") as out:
            out.write("\n".join(lines))


def try_sessions(room):
    with open(f"{HERE}/sessions.json", encoding="utf-8") as file:
        data = json.load(file)
    for number, (session, tables) in enumerate(data["sessions"].items()):
        folder = f"{room}/session{number}"
        files_written(folder, data["files"])
        client = server(folder, library=f"{folder}/l")
        for table in tables:
            send = send_at_once if table in data["at once"] else send_one_by_one
            send(client, f"{session}, {table}", data["tables"][table], folder)


# Streams, and what stands in them: bodies of messages and faults, each with a semicolon behind it. The most bytes of a message are 67108864.
STREAMS = [
    (b"", ""),
    (b"Content-Length: 2\r\n\r\n{}", "{};"),
    (b"content-length:2\n\n{}Content-LENGTH: 2\r\n\r\n[]", "{};[];"),
    (b"Content-Type: application/vscode-jsonrpc; charset=utf-8\r\nContent-Length: 2\r\n\r\n{}", "{};"),
    (b"Content-Length: 0\r\n\r\nContent-Length: 1\r\n\r\n5", ";5;"),
    (b"Content-Length: 5\r\n\r\n{}", ""),
    (b"\r\nContent-Length: 2\r\n\r\n{}", "no length;{};"),
    (b"words\r\n\r\nContent-Length: 2\r\n\r\n{}", "no header;{};"),
    (b"Content-Length: x\r\n\r\n{}Content-Length: 2\r\n\r\n{}", "no header;{};"),
    (b"Content-Length: -1\r\n\r\n{}\nContent-Length: 2\r\n\r\n{}", "no header;{};"),
    (b"Content-Length: 99999999999999999999999\r\n\r\nContent-Length: 2\r\n\r\n{}", "no header;{};"),
    (b"Content-Length: 67108865\r\n\r\n{}", ""),
]
# What is answered to these bodies, of which none is a request, and to faults
NO_REQUEST, NO_JSON = -32600, -32700
ANSWERS = {
    "{}": (NO_REQUEST, "the message names no method"),
    "[]": (NO_REQUEST, "the message is no object"),
    "5": (NO_REQUEST, "the message is no object"),
    "": (NO_JSON, "the message is no JSON"),
    "no header": (NO_JSON, "this is no header of a message"),
    "no length": (NO_JSON, "the header has no Content-Length"),
}


def answer_to(word):
    code, words = ANSWERS[word]
    return bytes_of({"error": {"code": code, "message": words}, "id": None, "jsonrpc": "2.0"})


def try_streams(room):
    """Each stream is sent as it stands, and then the input ends. All that comes back is compared, byte by byte, with its headers."""
    for stream, words in STREAMS:
        came = subprocess.run([M2, "lsp"], cwd=room, env=VARIABLES, input=stream, capture_output=True, timeout=PATIENCE)
        wanted = b"".join(answer_to(word) for word in words.split(";")[:-1])
        check(f"the stream {stream!r}", came.stdout == wanted, (came.stdout, wanted))
        check(f"the end of the stream {stream!r}", (came.returncode, came.stderr) == (1, b""), (came.returncode, came.stderr))
