"""Cases as they stand in their files: which keys they have, and what is wrong with them."""
import os
import re
import shlex

from case_yaml import Fault, read


def is_text(value):
    return isinstance(value, str)


def is_number(value):
    return is_text(value) and value.isdigit()


def is_time(value):
    """From so many milliseconds to so many, or on."""
    return is_text(value) and re.fullmatch(r"\d+\.\.\d*", value)


def is_built(value):
    return isinstance(value, (str, list, dict))


def is_texts(value):
    return isinstance(value, list) and all(map(is_text, value))


def is_word(value):
    """A word of a list, or words that repeat."""
    return is_text(value) or is_named(value) and set(value) == {"times", "of"} and is_number(value["times"]) and is_words(value["of"])


def is_words(value):
    return is_text(value) or isinstance(value, list) and all(map(is_word, value))


def is_named(value):
    return isinstance(value, dict)


def is_named_texts(value):
    return is_named(value) and all(map(is_text, value.values()))


def is_list(value):
    return isinstance(value, list)


# What the keys of a call, and of an exchange of its Engine, may have for a value.
FORMS = {
    "copy": is_text,
    "files": is_named,
    "in": is_text,
    "removed": is_text,
    "variables": is_named_texts,
    "call": is_words,
    "workers": is_text,
    "any_order": is_text,
    "input": is_built,
    "engine": is_list,
    "took": is_time,
    "status": is_number,
    "out": is_built,
    "out_to": is_text,
    "out_room": is_number,
    "err": is_built,
    "terminal": is_text,
}
EXCHANGE_FORMS = {
    "ask": is_text,
    "query": is_named_texts,
    "sent": is_built,
    "head": is_text,
    "status": is_number,
    "body": is_built,
    "chunks": is_texts,
    "raw": is_built,
    "makes": is_text,
    "pause": is_number,
    "cut": is_number,
    "close": is_text,
    "silent": is_text,
}


class Call:
    """A call of a case: what goes into it, and what is wanted of it."""

    def __init__(self, parts, what):
        hold_to(parts, FORMS, what)
        if "call" not in parts:
            raise Fault(f"{what} has no `call`, its words")
        self.parts, self.words = parts, words_of(parts["call"])
        for at, exchange in enumerate(parts.get("engine") or [], 1):
            hold_to(exchange, EXCHANGE_FORMS, f"exchange {at}")
            if "ask" not in exchange:
                raise Fault(f"exchange {at} has no `ask`, a method and a path")


class Case:
    """A case of a file: where it stands, and its calls."""

    def __init__(self, place, parts):
        if not isinstance(parts, dict) or not is_text(parts.get("case", "")):
            raise Fault("a case is a mapping, and its `case` a sentence")
        self.place = f"{place}: {parts.get('case') or beginning(parts)}"
        parts = {key: value for key, value in parts.items() if key != "case"}
        if list(parts) == ["calls"] and is_list(parts["calls"]):
            self.calls = [Call(it, f"call {at}") for at, it in enumerate(parts["calls"], 1)]
        else:
            self.calls = [Call(parts, "the case")]


def beginning(parts):
    """What stands for the sentence of a case that has none: the beginning of its last file, or else its words."""
    texts = list(parts["files"].values()) if is_named(parts.get("files")) else []
    text = built(texts[-1]).decode("utf-8", "backslashreplace") if texts else str(parts.get("call", "calls"))
    text = " ".join(text.split())
    return text if len(text) <= 100 else text[:100] + " .."


def words_of(call):
    """The words of a call: a list, in which words may repeat, as it stands, and a text as a shell cuts it."""
    if isinstance(call, dict):
        return int(call["times"]) * words_of(call["of"])
    if isinstance(call, list):
        return [word for it in call for word in ([it] if is_text(it) else words_of(it))]
    try:
        return shlex.split(call)
    except ValueError as fault:
        raise Fault(f"the words of `call`: {fault}") from fault


def hold_to(parts, forms, what):
    """Refuses keys that nothing knows, and values of another form."""
    if not isinstance(parts, dict):
        raise Fault(f"{what} is no mapping")
    for key, value in parts.items():
        if key not in forms:
            raise Fault(f"{what} has the key `{key}`, which nothing knows")
        # What is empty is empty in each form.
        if value != "" and not forms[key](value):
            raise Fault(f"`{key}` of {what} has a value of another form")


def built(text):
    """The bytes of a text: a scalar, or parts that are joined."""
    if isinstance(text, str):
        return text.encode()
    if isinstance(text, list):
        return b"".join(map(built, text))
    if isinstance(text, dict) and set(text) == {"times", "of"}:
        return built(text["of"]) * int(text["times"])
    if isinstance(text, dict) and set(text) | {"from"} == {"times", "from", "counting"}:
        first, times = int(text.get("from", "0")), int(text["times"])
        # `#-1` is the number before.
        pieces = [built(text["counting"]).replace(b"#-1", b"%d" % (at - 1)).replace(b"#", b"%d" % at) for at in range(first, first + times)]
        return b"".join(pieces)
    if isinstance(text, dict) and set(text) == {"times", "deeper"}:
        return b"".join(b" " * at + built(text["deeper"]) for at in range(int(text["times"])))
    if isinstance(text, dict) and set(text) == {"first", "of"}:
        return built(text["of"])[: int(text["first"])]
    if isinstance(text, dict) and set(text) == {"bytes"}:
        return bytes.fromhex(text["bytes"])
    parts = "TEXT, {times: N, of: TEXT}, the same with `counting` or `deeper`, {first: N, of: TEXT}, {bytes: HEX}"
    raise Fault(f"a text is a scalar, or parts: {parts}")


def cases_of(file, place):
    """The cases of a file, and the lines of what is none there."""
    cases, faults = [], []
    try:
        with open(file, encoding="utf-8") as it:
            items = read(it.read())
        if not isinstance(items, list):
            raise Fault("a case file is a sequence of cases")
    except (Fault, OSError, ValueError) as fault:
        return [], [f"{place}: {fault}"]
    for number, parts in enumerate(items, 1):
        try:
            cases.append(Case(f"{place}, case {number}", parts))
        except (Fault, ValueError) as fault:
            faults.append(f"{place}, case {number}: no case: {fault}")
    return cases, faults


def all_cases(top):
    """The cases of all files below tests/cases, and the lines of what is none there."""
    cases, faults = [], []
    for at, folders, names in os.walk(os.path.join(top, "tests", "cases")):
        folders.sort()
        for name in sorted(names):
            if name.endswith(".yaml"):
                file = os.path.join(at, name)
                found = cases_of(file, os.path.relpath(file, top))
                cases += found[0]
                faults += found[1]
    return cases, faults
