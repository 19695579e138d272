"""Reads case files: the part of YAML that they are written in.

A file is read as any reader of YAML 1.2 would read it, but that every scalar is a text. There are block mappings and block sequences,
scalars on one line (plain, in single quotes, in double quotes), literal texts (`|`, `|-`, `|+`), flow sequences and flow mappings,
anchors and aliases, and comments. Anything else is refused by its line: folded texts, scalars of several lines, tags, merge
keys, tabs before a line's text.
"""
import re

ESCAPES = {"n": "\n", "t": "\t", "r": "\r", "0": "\0", "a": "\a", "b": "\b", "e": "\x1b", "f": "\f", "v": "\v"}
ESCAPES.update({mark: mark for mark in '"\\/ '})
WIDTHS = {"x": 2, "u": 4, "U": 8}


class Fault(Exception):
    """What is wrong with a case file, or with a case."""


class Line:
    """The rest of one line that is being read, from left to right."""

    def __init__(self, text, number, named):
        self.text, self.at, self.number, self.named = text, 0, number, named

    def fault(self, why):
        return Fault(f"line {self.number}: {why}")

    def rest(self):
        return self.text[self.at :]

    def next(self):
        return self.text[self.at : self.at + 1]

    def skip_spaces(self):
        while self.next() == " ":
            self.at += 1

    def ends(self):
        """Whether nothing but a comment follows."""
        rest = self.rest()
        return not rest.strip() or bool(re.match(r" +#", rest)) or self.at == 0 and rest.startswith("#")

    def single_quoted(self):
        found = re.compile(r"'((?:[^']|'')*)'").match(self.text, self.at)
        if not found:
            raise self.fault("a text in single quotes has no end on its line")
        self.at = found.end()
        return found[1].replace("''", "'")

    def double_quoted(self):
        parts = []
        self.at += 1
        while self.next() != '"':
            if not self.next():
                raise self.fault("a text in double quotes has no end on its line")
            parts.append(self.escaped() if self.next() == "\\" else self.next())
            self.at += 1
        self.at += 1
        return "".join(parts)

    def escaped(self):
        """What a backslash and what follows stand for; it ends at the last character of these."""
        self.at += 1
        mark = self.next()
        if mark in WIDTHS:
            digits = self.text[self.at + 1 : self.at + 1 + WIDTHS[mark]]
            if re.fullmatch(r"[0-9A-Fa-f]{%d}" % WIDTHS[mark], digits):
                self.at += len(digits)
                return chr(int(digits, 16))
        if not mark or mark not in ESCAPES:
            raise self.fault(f"no escape in double quotes: \\{mark}")
        return ESCAPES[mark]

    def plain(self, pattern):
        """A scalar without quotes, as far as the pattern goes."""
        if re.match(r"[&*!|>%@`\"'\[\]{},#]|[-?:]( |$)", self.rest()):
            raise self.fault(f"a scalar without quotes can't begin so: {self.rest()[:20]}")
        found = re.compile(pattern).match(self.text, self.at)
        self.at = found.end()
        return found[0].strip()

    def name(self):
        """The name behind `&` or `*`."""
        found = re.compile(r".([^\s,\[\]{}]+)").match(self.text, self.at)
        if not found:
            raise self.fault("an anchor or alias without a name")
        self.at = found.end()
        self.skip_spaces()
        return found[1]

    def alias(self):
        name = self.name()
        if name not in self.named:
            raise self.fault(f"no value above has the name {name}")
        return self.named[name]

    def flow(self):
        """A value inside of brackets."""
        self.skip_spaces()
        if self.next() == "*":
            return self.alias()
        if self.next() == "&":
            name = self.name()
            self.named[name] = self.flow()
            return self.named[name]
        if self.next() == "[":
            return self.flow_items("]", lambda items: items.append(self.flow()), [])
        if self.next() == "{":
            return self.flow_items("}", self.flow_entry, {})
        if self.next() in ("'", '"'):
            return self.single_quoted() if self.next() == "'" else self.double_quoted()
        if self.next() in (",", "]", "}"):
            return ""
        return self.plain(r"(?:[^\s,\[\]{}:]|[ ](?!#)|:(?![\s,\[\]{}]|$))*")

    def flow_items(self, end, read, items):
        self.at += 1
        while True:
            self.skip_spaces()
            if self.next() == end:
                self.at += 1
                return items
            read(items)
            self.skip_spaces()
            if self.next() == ",":
                self.at += 1
            elif self.next() != end:
                raise self.fault("brackets have no end on their line")

    def flow_entry(self, entries):
        key = self.flow()
        self.skip_spaces()
        if self.next() != ":" or not isinstance(key, str):
            raise self.fault("`KEY: VALUE` is wanted inside of { }")
        self.at += 1
        if key in entries:
            raise self.fault(f"the key {key} stands twice")
        entries[key] = self.flow()

    def value(self):
        """A scalar or a flow value up to the line's end."""
        self.skip_spaces()
        if self.next() in ("'", '"', "[", "{", "*"):
            value = self.flow()
        else:
            value = self.plain(r"(?:[^ :]| (?!#)|:(?! |$))*")
        if not self.ends():
            raise self.fault(f"nothing can stand behind a value: {self.rest().strip()[:40]}")
        return value

    def key(self):
        """The key that the line begins with, behind its colon; None where it begins with none."""
        begin = self.at
        if re.match(r"[&*!|>%@`\[\]{},#]|[-?:]( |$)|$", self.rest()):
            return None
        if self.next() in ("'", '"'):
            key = self.single_quoted() if self.next() == "'" else self.double_quoted()
        else:
            found = re.compile(r"(?:[^ :]| (?!#)|:(?! |$))*(?=:( |$))").match(self.text, self.at)
            if not found:
                return None
            key = self.plain(r"(?:[^ :]| (?!#)|:(?! |$))*")
        if not re.match(r":( |$)", self.rest()):
            self.at = begin
            return None
        self.at += 1
        return key


def is_open(text):
    """Whether a flow value has brackets that aren't closed yet."""
    if text[:1] not in ("[", "{"):
        return False
    outside = re.sub(r"'[^']*'|\"(?:[^\"\\]|\\.)*\"", "", text)
    return len(re.findall(r"[\[{]", outside)) > len(re.findall(r"[\]}]", outside))


class Reader:
    """The lines of a file, of which those before `at` are read."""

    def __init__(self, text):
        self.lines, self.at, self.named = text.split("\n"), 0, {}

    def fault(self, why):
        return Fault(f"line {self.at + 1}: {why}")

    def skip(self):
        """Goes on to the next line that says something."""
        while self.at < len(self.lines) and re.match(r" *(#|$)", self.lines[self.at]):
            self.at += 1

    def depth(self):
        """How deep that line stands; -1 at the end of the file."""
        self.skip()
        if self.at == len(self.lines):
            return -1
        line = self.lines[self.at]
        if line.lstrip(" ").startswith("\t"):
            raise self.fault("a tab before the line's text")
        return len(line) - len(line.lstrip(" "))

    def block(self, depth):
        """The mapping, sequence or scalar that begins at this line."""
        line = self.lines[self.at][depth:]
        if line == "-" or line.startswith("- "):
            return self.sequence(depth)
        if self.line(line).key() is not None:
            return self.mapping(depth)
        value = self.value_line(line)
        self.at += 1
        return value.value()

    def line(self, text):
        return Line(text, self.at + 1, self.named)

    def value_line(self, text):
        """A line that begins with a value, with those behind it on which a flow value goes on."""
        line = self.line(text)
        while is_open(line.text) and self.at + 1 < len(self.lines):
            self.at += 1
            line.text += " " + self.lines[self.at].strip(" ")
        return line

    def anchored(self, rest):
        """The name of an anchor that a value begins with, if it does, and what stands behind it."""
        if not rest.startswith("&"):
            return None, rest
        line = self.line(rest)
        return line.name(), line.rest()

    def keep(self, name, value):
        if name:
            self.named[name] = value
        return value

    def sequence(self, depth):
        items = []
        while self.depth() == depth and re.match(r"-( |$)", self.lines[self.at][depth:]):
            name, rest = self.anchored(self.lines[self.at][depth + 1 :].lstrip(" "))
            items.append(self.keep(name, self.item(rest, depth)))
        return items

    def item(self, rest, depth):
        """What stands behind a dash."""
        if rest.startswith("|"):
            return self.literal(rest, depth)
        if not rest or rest.startswith("#"):
            self.at += 1
            return self.below(depth)
        # As if it stood on a line of its own.
        inside = len(self.lines[self.at]) - len(rest)
        self.lines[self.at] = " " * inside + rest
        return self.block(inside)

    def mapping(self, depth):
        entries = {}
        while self.depth() == depth:
            line = self.line(self.lines[self.at][depth:])
            key = None if re.match(r"-( |$)", line.text) else line.key()
            if key is None:
                raise self.fault("`KEY: VALUE` is wanted")
            if key in entries:
                raise self.fault(f"the key {key} stands twice")
            entries[key] = self.entry(line, depth)
        if self.depth() > depth:
            raise self.fault("this line stands deeper than those before it")
        return entries

    def entry(self, line, depth):
        """What stands behind a key."""
        name, rest = self.anchored(line.rest().strip(" "))
        if rest.startswith("|"):
            return self.keep(name, self.literal(rest, depth))
        value = self.value_line(rest)
        self.at += 1
        if not value.ends():
            return self.keep(name, value.value())
        is_sequence = self.depth() == depth and re.match(r"-( |$)", self.lines[self.at][depth:])
        return self.keep(name, self.sequence(depth) if is_sequence else self.below(depth))

    def below(self, depth):
        """What stands deeper than this, or else the empty text."""
        inside = self.depth()
        return self.block(inside) if inside > depth else ""

    def literal(self, header, depth):
        """The text of the lines that stand deeper."""
        found = re.fullmatch(r"\|([1-9]?)([-+]?)( +#.*)?", header)
        if not found:
            raise self.fault("of texts on several lines only `|`, `|-` and `|+` are read")
        self.at += 1
        begin = self.at
        inside = depth + int(found[1]) if found[1] else None
        while self.at < len(self.lines):
            line = self.lines[self.at]
            if line.strip(" "):
                stands = len(line) - len(line.lstrip(" "))
                if inside is None:
                    inside = stands
                if stands < max(inside, depth + 1):
                    break
            self.at += 1
        taken = [line[inside or 0 :] for line in self.lines[begin : self.at]]
        if self.at == len(self.lines) and taken and not taken[-1]:
            # Behind the last line end there is no line.
            taken.pop()
        text = "".join(line + "\n" for line in taken)
        if found[2] == "+":
            return text
        text = text.rstrip("\n")
        return text + "\n" if text and not found[2] else text


def read(text):
    """The value that a file holds: texts, lists, and dictionaries in their order."""
    if text.startswith("\ufeff") or "\r" in text:
        raise Fault("line 1: a byte order mark or a carriage return")
    reader = Reader(text)
    depth = reader.depth()
    if depth < 0:
        return ""
    value = reader.block(depth)
    if reader.depth() >= 0:
        raise reader.fault("this line isn't part of what stands before it")
    return value
