#!/usr/bin/env python3
"""Whether the dictionaries of share/quickfix have every field of every kind of report and of drop copy, with its value: KAMURJESH42.xml
those of the bond market, KAMURJESH42-EQUITIES.xml those of the equities market.

    tests/readers/dictionary.py

Takes the messages of docs/SAMPLES.md and those that the markets write in tests/vectors/transcript; SenderSubID (50) says of which. Says nothing where all is well, and
else what is not, a line each: a field that the dictionary lacks, or has elsewhere; a value that is not of the field's type or set;
a required field that is missing; a field of the dictionary that no message has; a kind of which there is no message.
Exit status 1 where it says something.
"""
import os
import re
import sys
import xml.etree.ElementTree as xml

ROOT = os.path.dirname(os.path.dirname(os.path.dirname(os.path.realpath(__file__))))
SHAPES = {
    "BOOLEAN": r"[YN]",
    "CHAR": r".",
    "INT": r"-?\d+",
    "PRICE": r"-?\d+(\.\d+)?",
    "QTY": r"\d+",
    "STRING": r".+",
    "UTCTIMESTAMP": r"\d{8}-\d\d:\d\d:\d\d(\.\d{3})?",
}
# by 50
DICTIONARIES = {"DJGB": "KAMURJESH42.xml", "DAY": "KAMURJESH42-EQUITIES.xml"}
# by 150, of the messages with 35=8
EXECUTIONS = {"0": "Accepted", "5": "Replaced", "4": "Canceled", "1": "Trade", "2": "Trade", "8": "Rejected"}
COPIED = ["Accepted", "Replaced", "Canceled", "Trade"]
KINDS = COPIED + ["Rejected", "Cancel reject", "Session Reject"] + [f"copy of {kind}" for kind in COPIED]


class Dictionary:
    """The parts of a dictionary by tag."""

    def __init__(self, path):
        root = xml.parse(path).getroot()
        self.fields = {int(field.get("number")): field for field in root.find("fields")}
        self.tags = {field.get("name"): tag for tag, field in self.fields.items()}
        self.header = self.listed(root.find("header"))
        self.trailer = self.listed(root.find("trailer"))
        self.bodies = {message.get("msgtype"): self.listed(message) for message in root.find("messages")}

    def listed(self, part):
        """By tag, whether a field of this part is required."""
        nameless = [field.get("name") for field in part if field.get("name") not in self.tags]
        if nameless:
            sys.exit(f"dictionary: no field is called {nameless[0]}")
        return {self.tags[field.get("name")]: field.get("required") == "Y" for field in part}

    def takes(self, tag, value):
        field = self.fields[tag]
        values = [one.get("enum") for one in field]
        return re.fullmatch(SHAPES[field.get("type")], value) is not None and (not values or value in values)


def fields_of(message):
    """The fields of a message with | for SOH, and \\xHH for a | within a value."""
    pairs = (field.split("=", 1) for field in message.rstrip("|").split("|"))
    unescaped = re.compile(r"\\x([0-9a-f]{2})")
    return [(int(tag), unescaped.sub(lambda code: chr(int(code[1], 16)), value)) for tag, value in pairs]


def messages():
    with open(os.path.join(ROOT, "docs/SAMPLES.md"), encoding="ascii") as page:
        yield from re.findall(r"^ +(8=FIX.*)$", page.read(), re.M)
    with open(os.path.join(ROOT, "tests/vectors/transcript"), encoding="ascii") as transcript:
        for line in transcript:
            written = re.fullmatch(r"[srlc](?: \d+)+ (8=FIX.*)\n", line)
            if written:
                yield from re.findall(r"8=FIX\.4\.2\|.*?\|10=\d{3}\|", written[1])


def kind_of(fields):
    values = dict(fields)
    if values[35] != "8":
        return {"9": "Cancel reject", "3": "Session Reject"}[values[35]]
    return ("copy of " if 797 in values else "") + EXECUTIONS[values[150]]


def wrong_in(dictionary, fields):
    """What the dictionary does not say of these fields: 8 to 56 are the header's, 10 is the trailer's, the body is between."""
    end_of_header = 1 + [tag for tag, _ in fields].index(56)
    parts = [
        (dictionary.header, fields[:end_of_header]),
        (dictionary.bodies.get(dict(fields)[35], {}), fields[end_of_header:-1]),
        (dictionary.trailer, fields[-1:]),
    ]
    for listed, there in parts:
        for tag, value in there:
            if tag not in listed:
                yield f"{tag} is not there"
            elif not dictionary.takes(tag, value):
                yield f"{tag} cannot be {value}"
        for tag, required in listed.items():
            if required and tag not in dict(there):
                yield f"{tag} is required"


def unused(dictionary, seen):
    """What the dictionary says of fields that no message has."""
    for tag in dictionary.fields:
        if not any(tag in tags for tags in seen.values()):
            yield f"no message has {tag}"
    for msg_type, body in dictionary.bodies.items():
        for tag in body:
            if tag not in seen.get(msg_type, ()):
                yield f"no message with 35={msg_type} has {tag}"


def complaints_of(market, messages):
    """What is not well with the dictionary of a market and its messages."""
    dictionary = Dictionary(os.path.join(ROOT, "share/quickfix", DICTIONARIES[market]))
    complaints, kinds, seen = {}, set(), {}
    for message, fields in messages:
        kinds.add(kind_of(fields))
        seen.setdefault(dict(fields)[35], set()).update(dict(fields))
        for what in wrong_in(dictionary, fields):
            complaints.setdefault(f"{kind_of(fields)}: {what}", message)
    lines = [f"{what}, in {message}" for what, message in complaints.items()]
    lines += [f"there is no {kind} to look at" for kind in KINDS if kind not in kinds]
    return lines + list(unused(dictionary, seen))


def main():
    by_market = {market: [] for market in DICTIONARIES}
    for message in messages():
        fields = fields_of(message)
        by_market[dict(fields)[50]].append((message, fields))
    lines = [f"{DICTIONARIES[market]}: {line}" for market, all_of in by_market.items() for line in complaints_of(market, all_of)]
    for line in lines:
        print(f"dictionary: {line}")
    return 1 if lines else 0


if __name__ == "__main__":
    sys.exit(main())
