"""Tables of requests and replies, and what they need: a printer that holds back its acknowledgements, and a host in a wanted state.

A table has rows. A line `== NAME` begins the rows of a case, `-- NAME` a row, and these lines make up a row:

    after: NAME NAME      the rows of states.txt that set up its state, in this order, each after those of its own `after`
    settings: LITERALS    what the settings have besides the printer, the admin and the temperature limits
    limits: KEY = VALUE   a line of the settings' temperature limits
    printer: TEXT         there is a printer, which acknowledges `M105` with `ok TEXT`; else nobody listens at the port
    holds: WORD           the printer doesn't acknowledge commands that begin with this word
    > METHOD PATH BODY    a request with the admin's key, and if it has a body with the type application/json and its length
    >> LITERALS           a message as it is
    + NAME: VALUE         of a request: this field, in place of one with this name; of a reply: one field more
    - NAME                of a request: without this field
    = LITERALS            of a request: this body
    closes                the client closes its side after the request
    < STATUS BODY         the whole reply: its status, `Connection`, the length, the type application/json, further fields, the body
    << LITERALS           the whole reply as it is; `<< ''` is a connection that the host closes without a reply
    <~ LITERALS           what the reply begins with, and what it ends with
    takes: PATH | METHODS the path takes these methods of METHODS below and no others, by requests without a key: of those that it
                          takes it is only looked at that the status is neither 404 nor 405
    cuts: N               the message before is sent once for each of its lengths from N on, each time with the client's side closed;
                          the replies begin what the last line `<<` says
    executes: A | 2 * B   the commands that the printer executed since the row began, here A, B and B
    release               the printer acknowledges what it holds back, and holds back nothing more
    hangs up              the printer closes the connection
    reported              waits until the printer has answered a question for its temperatures
    state: NAME           waits until the host is in this state
    calls: N              the host is shut down, and says that it served this number of calls, the shutdown among them
    ended: N              the host ends, and says the same
    is backed up          there is a backup of the database
    file limit: N         from now on the host can't write to a file beyond this number of bytes
    no folder             the host's folder is removed
    no backup             the file of a backup can't be written

LITERALS are Python's, each perhaps with `*N` for a repetition. `$PORT` is the printer's port, `$KEY` the admin's key, `$TAB` a tab. A line
that begins with a space goes on with the line before it. Each message has a reply."""

import ast
import re

METHODS = ["GET", "POST", "PUT", "DELETE", "HEAD", "PATCH", "OPTIONS", "get"]
PIECE = re.compile(r"\s*(b?'(?:[^'\\]|\\.)*'|b?\"(?:[^\"\\]|\\.)*\")(?:\s*\*\s*(\d+))?")
PHRASES = {
    200: "OK", 201: "Created", 204: "No Content", 400: "Bad Request", 403: "Forbidden", 404: "Not Found", 405: "Method Not Allowed",
    408: "Request Timeout", 409: "Conflict", 411: "Length Required", 413: "Payload Too Large", 415: "Unsupported Media Type",
    431: "Request Header Fields Too Large", 503: "Service Unavailable", 507: "Insufficient Storage",
}


def literals(text, where):
    """The bytes of some literals; those beyond Latin-1 are UTF-8."""
    pieces, at = [], 0
    while text[at:].strip():
        found = PIECE.match(text, at)
        if not found:
            raise SystemExit("%s: no literal: %s" % (where, text[at:]))
        piece = ast.literal_eval(found[1])
        if isinstance(piece, str):
            piece = piece.encode()
        pieces.append(piece * int(found[2] or 1))
        at = found.end()
    return pieces


class Exchange:
    """A request, and the reply that is wanted."""

    def __init__(self, where):
        self.where = where
        self.method = self.path = self.raw = self.body = None
        self.fields = [["Host", "a"], ["X-Api-Key", "$KEY"]]
        self.closes = False
        self.cuts = None
        self.kind = self.wanted = None
        self.status = 0
        self.more = []

    def set_field(self, name, value):
        for field in self.fields:
            if field[0].lower() == name.lower():
                field[1] = value
                return
        self.fields.append([name, value])

    def drop_field(self, name):
        kept = [field for field in self.fields if field[0].lower() != name.lower()]
        if len(kept) == len(self.fields):
            # One that is added later, as the type or the length of a body.
            self.fields.append([name, None])
        else:
            self.fields = kept

    def message(self):
        if self.raw is not None:
            return self.raw
        names = [name.lower() for name, _ in self.fields]
        fields = [(name, value) for name, value in self.fields if value is not None]
        if self.body is not None:
            if "content-type" not in names:
                fields.append(("Content-Type", "application/json"))
            if "content-length" not in names and "transfer-encoding" not in names:
                fields.append(("Content-Length", "%d" % len(self.body)))
        lines = [self.method + b" " + self.path + b" HTTP/1.1"] + [("%s: %s" % field).encode() for field in fields]
        return b"\r\n".join(lines) + b"\r\n\r\n" + (self.body or b"")

    def reply(self, port):
        """The bytes that are wanted."""
        if self.kind == "raw":
            return self.wanted[0].replace(b"$PORT", b"%d" % port)
        if self.kind != "reply":
            return self.wanted
        body = self.wanted.replace(b"$PORT", b"%d" % port)
        lines = ["HTTP/1.1 %d %s" % (self.status, PHRASES[self.status]), "Connection: close"]
        if self.status != 204:
            lines.append("Content-Length: %d" % len(body))
        if body:
            lines.append("Content-Type: application/json")
        head = ("\r\n".join(lines + self.more) + "\r\n\r\n").encode()
        return head if self.method == b"HEAD" else head + body

    def fits(self, found, port):
        if self.kind == "taken":
            return found[9:12] not in (b"", b"404", b"405", b"501")
        if self.kind == "ends":
            return found.startswith(self.wanted[0]) and found.endswith(self.wanted[1])
        return found == self.reply(port)

    def is_safe(self):
        """Whether the host is as before."""
        return self.kind == "taken" or self.method in (b"GET", b"HEAD", b"OPTIONS") or self.status >= 400


class Row:
    def __init__(self, table, case, name, line):
        self.table, self.case, self.name, self.line = table, case, name, line
        self.after = []
        self.settings = b""
        self.printer = self.holds = self.limits = None
        self.steps = []

    def full_name(self):
        return "%s: %s/%s" % (self.table, self.case, self.name)

    def counts_calls(self):
        """Whether it needs a host of its own."""
        return any(kind in ("calls", "ended") for kind, _ in self.steps)

    def is_safe(self):
        return all(kind == "ask" and what.is_safe() for kind, what in self.steps)


def request_line(row, text, where):
    ask = Exchange(where)
    method, _, rest = text.partition(" ")
    ask.method = method.encode()
    if re.match("b?['\"]", rest):
        ask.path = b"".join(literals(rest, where))
    else:
        path, _, body = rest.partition(" ")
        ask.path, ask.body = path.encode(), body.encode() or None
    row.steps.append(("ask", ask))


def method_asks(text, where):
    """Requests without a key by each method, and that a path takes some of them, and no others."""
    path, _, allowed = (part.strip() for part in text.partition("|"))
    asks = []
    for method in METHODS:
        ask = Exchange(where)
        ask.method, ask.path = method.encode(), path.encode()
        ask.drop_field("X-Api-Key")
        if method in allowed.split(", "):
            ask.kind, ask.wanted = "taken", b"taken"
        elif method == "OPTIONS":
            reply_line(ask, "204")
            ask.more.append("Allow: " + allowed)
        else:
            reply_line(ask, '405 {"error":"BadMethod","reason":"this path takes %s and no other method"}' % allowed)
            ask.more.append("Allow: " + allowed)
        asks.append(("ask", ask))
    return asks


def reply_line(ask, text):
    status, _, body = text.partition(" ")
    ask.kind, ask.status, ask.wanted = "reply", int(status), body.encode()


def field_line(ask, line, where):
    if line[0] == "-":
        ask.drop_field(line[2:])
        return
    name, _, value = line[2:].partition(": ")
    if ask.kind is None:
        ask.set_field(name, value)
    elif ask.kind == "reply":
        ask.more.append(line[2:])
    else:
        raise SystemExit("%s: a field of a reply that is written out" % where)


def literal_line(row, ask, mark, text, where):
    pieces = literals(text, where)
    if mark == ">>":
        ask = Exchange(where)
        ask.raw = b"".join(pieces)
        row.steps.append(("ask", ask))
    elif mark == "=":
        ask.body = b"".join(pieces)
    elif mark == "<<":
        ask.kind, ask.wanted = "raw", [b"".join(pieces)]
        ask.status = int(ask.wanted[0][9:12] or b"999")
    else:
        ask.kind, ask.wanted = "ends", pieces
        ask.status = int(pieces[0][9:12])


def commands_of(text):
    """Commands with bars between them, each perhaps a number of times."""
    found = []
    for part in text.split("|") if text else []:
        count, star, command = part.strip().partition(" * ")
        found += [command] * int(count) if star else [part.strip()]
    return found


def word_line(row, ask, line, where):
    word, _, text = line.partition(":")
    text = text.strip()
    if word == "after":
        row.after = text.split()
    elif word == "settings":
        row.settings = b"".join(literals(text, where))
    elif word == "takes":
        row.steps += method_asks(text, where)
    elif word in ("printer", "holds", "limits"):
        setattr(row, word, text)
    elif word == "closes":
        ask.closes = True
    elif word == "cuts":
        ask.cuts = int(text)
    elif word == "executes":
        row.steps.append((word, commands_of(text)))
    elif word in ("calls", "ended", "file limit"):
        row.steps.append((word, int(text)))
    elif word in ("state", "release", "hangs up", "no folder", "no backup", "is backed up", "reported"):
        row.steps.append((word, text))
    else:
        raise SystemExit("%s: what is %s" % (where, line))


def row_line(row, line, where):
    ask = row.steps[-1][1] if row.steps and row.steps[-1][0] == "ask" else None
    mark = re.match(r">>|<<|<~|>|<|\+|-|=|", line)[0]
    if mark == ">":
        request_line(row, line[2:], where)
    elif mark == "<":
        reply_line(ask, line[2:])
    elif mark in ("+", "-"):
        field_line(ask, line, where)
    elif mark:
        literal_line(row, ask, mark, line[len(mark):], where)
    else:
        word_line(row, ask, line, where)


def logical_lines(path):
    """The lines without comments and empty ones, with what goes on in the next ones."""
    found = []
    for number, line in enumerate(open(path, encoding="utf-8"), 1):
        line = line.rstrip("\n")
        if line.startswith(" "):
            found[-1][1] += " " + line.strip()
        elif line and not line.startswith("#"):
            found.append([number, line])
    return found


def rows_of(path):
    """The rows of a table."""
    rows, case = [], None
    table = path.rsplit("/", 1)[1].removesuffix(".txt")
    for number, line in logical_lines(path):
        where = "%s:%d" % (path, number)
        if line.startswith("== "):
            case = line[3:]
        elif line.startswith("-- "):
            rows.append(Row(table, case, line[3:], number))
        else:
            row_line(rows[-1], line, where)
    for row in rows:
        if any(kind == "ask" and what.kind is None for kind, what in row.steps):
            raise SystemExit("%s: a message without a reply" % row.full_name())
    return rows
