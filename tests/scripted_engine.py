"""An Engine at a Unix socket that answers by a script: the requests that are wanted, in their order, each with its response."""
import json
import socket
import threading
import time
from urllib.parse import parse_qsl

from case_files import built

VERSION = "/v1.43"
REASONS = {200: "OK", 201: "Created", 204: "No Content", 304: "Not Modified", 400: "Bad Request", 403: "Forbidden"}
REASONS.update({404: "Not Found", 409: "Conflict", 500: "Internal Server Error"})


class Request:
    """A request as it came."""

    def __init__(self, head, body):
        self.head, self.body = head, body
        self.method, target = (head.split("\r\n")[0].split(" ") + ["", ""])[:2]
        path, _, query = target.partition("?")
        self.path = path[len(VERSION) :] if path.startswith(VERSION + "/") else path
        self.query = dict(parse_qsl(query, keep_blank_values=True))


ANY = "<any>"


def value_of(text):
    """A body's value, or the text itself where it is no JSON."""
    try:
        return json.loads(text)
    except ValueError:
        return text


def wanted_value(exchange):
    """The value of the body that is wanted of a request."""
    return value_of(built(exchange["sent"]).decode())


def json_lines(value):
    """A value, a line a member, with the members of objects in order of their names."""
    return json.dumps(value, indent=2, sort_keys=True, ensure_ascii=False).split("\n")


def as_asked(value, wanted):
    """A value with `<any>` wherever the wanted one leaves what stands there open."""
    if wanted == ANY:
        return ANY
    if isinstance(value, dict) and isinstance(wanted, dict):
        return {name: as_asked(it, wanted.get(name)) for name, it in value.items()}
    if isinstance(value, list) and isinstance(wanted, list):
        return [as_asked(it, other) for it, other in zip(value, wanted)] + value[len(wanted) :]
    return value


def wanted_lines(exchange):
    """What is wanted of a request: its method and path, and its query, its body and its head where the script has them."""
    lines = [exchange["ask"]]
    if "query" in exchange:
        lines += [f"  query {name}={value}" for name, value in sorted(exchange["query"].items())]
    if "sent" in exchange:
        lines += ["  sent " + line for line in json_lines(wanted_value(exchange))]
    if "head" in exchange:
        lines += ["  head " + line for line in exchange["head"].rstrip("\n").split("\n")]
    return lines


def came_lines(request, exchange):
    """The same of a request that came, as far as the script asks of it."""
    lines = [f"{request.method} {request.path}"]
    if "query" in exchange:
        lines += [f"  query {name}={value}" for name, value in sorted(request.query.items())]
    if "sent" in exchange:
        lines += ["  sent " + line for line in json_lines(as_asked(value_of(request.body), wanted_value(exchange)))]
    if "head" in exchange:
        lines += ["  head " + line for line in request.head.split("\r\n")]
    return lines


def response_of(exchange):
    """The bytes of a response, as the script has it."""
    if "raw" in exchange:
        return built(exchange["raw"])
    status = int(exchange.get("status") or "200")
    body = built(exchange.get("body", ""))
    lines = [f"HTTP/1.1 {status} {REASONS.get(status, 'Status')}", "Content-Type: application/json"]
    if "chunks" in exchange:
        pieces = [piece.encode() for piece in exchange["chunks"]]
        body = b"".join(b"%x\r\n%s\r\n" % (len(piece), piece) for piece in pieces) + b"0\r\n\r\n"
        lines.append("Transfer-Encoding: chunked")
    elif status not in (204, 304):
        lines.append(f"Content-Length: {len(body)}")
    return "\r\n".join([*lines, "Connection: close", "", ""]).encode() + body


class ScriptedEngine:
    """Listens at a path until it is closed. `came` has the lines of the requests that came, as they are compared with `wanted`."""

    def __init__(self, path, script):
        self.script, self.came = script, []
        self.wanted = [line for exchange in script for line in wanted_lines(exchange)]
        self.listener = socket.socket(socket.AF_UNIX, socket.SOCK_STREAM)
        self.listener.bind(path)
        self.listener.listen(64)
        self.thread = threading.Thread(target=self.serve, daemon=True)
        self.thread.start()

    def serve(self):
        at = 0
        while True:
            try:
                connection = self.listener.accept()[0]
            except OSError:
                return
            with connection:
                connection.settimeout(30)
                try:
                    request = read_request(connection)
                    if request:
                        self.answer(connection, request, self.script[at] if at < len(self.script) else {})
                        at += 1
                except OSError:
                    pass

    def answer(self, connection, request, exchange):
        lines = came_lines(request, exchange)
        self.came += lines
        if not exchange or lines != wanted_lines(exchange) or "close" in exchange:
            return
        if "makes" in exchange:
            with open(exchange["makes"], "w", encoding="utf-8"):
                pass
        if "silent" in exchange:
            # Until the program leaves.
            connection.settimeout(None)
            connection.recv(1)
            return
        time.sleep(int(exchange.get("pause") or "0") / 1000)
        response = response_of(exchange)
        connection.sendall(response[: int(exchange["cut"])] if exchange.get("cut") else response)

    def close(self):
        self.listener.shutdown(socket.SHUT_RDWR)
        self.listener.close()
        self.thread.join(5)


def read_request(connection):
    """The next request of a connection; nothing where it ends before one."""
    read = b""
    while b"\r\n\r\n" not in read:
        more = connection.recv(65536)
        if not more:
            return None
        read += more
    head, _, body = read.partition(b"\r\n\r\n")
    head = head.decode("utf-8", "replace")
    length = 0
    for line in head.split("\r\n")[1:]:
        name, _, value = line.partition(":")
        if name.strip().lower() == "content-length":
            length = int(value.strip())
    while len(body) < length:
        more = connection.recv(65536)
        if not more:
            break
        body += more
    return Request(head, body.decode("utf-8", "replace"))
