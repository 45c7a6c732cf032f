#!/usr/bin/env python3
"""What the rules say of label records: a second writing, by the sentences of crates/label/specs and not by the code.

    label_model.py check FILE..     compares the answers stored in files of cases with the rules
    label_model.py cases FILE..     prints cases of our own, then short ones picked from FILE..
    label_model.py again FILE       prints the same again, with those that FILE holds already for the picked ones
    label_model.py answers FILE     prints what crates/answers has to answer to such a file
"""

import sys

from limits_model import finish, opening, push

# tag: shortest and longest value
TABLE = {1: (1, 32), 2: (0, 1024), 3: (1, 64), 4: (0, 4096)} | {tag: (0, 65535) for tag in range(128, 256)}
LONGEST_RECORD = 8192
PICKED = "# every fourth short case about records of those that came with the scope"


class Refused(Exception):
    """A number of the table and a place."""


def fields(record):
    """Tag, place and value of each field, or a refusal, in the order that the rules give."""
    if len(record) > LONGEST_RECORD:
        raise Refused(5, 0)
    found, at, before = [], 0, 0
    while at < len(record):
        if len(record) - at < 3:
            raise Refused(6, at)
        tag, size = record[at], record[at + 1] + 256 * record[at + 2]
        if tag not in TABLE:
            raise Refused(7, at)
        if tag <= before:
            raise Refused(8, at)
        if not TABLE[tag][0] <= size <= TABLE[tag][1]:
            raise Refused(9, at)
        if len(record) - at - 3 < size:
            raise Refused(6, at)
        found.append((tag, at, record[at + 3 : at + 3 + size]))
        at, before = at + 3 + size, tag
    tags = [tag for tag, _, _ in found]
    if 1 not in tags or 2 not in tags:
        raise Refused(10, len(record))
    return found


def read(record):
    try:
        fields(record)
        return "0 0 0"
    except Refused as refusal:
        return "%d %d 0" % refusal.args


def find(record, tags):
    try:
        present = {tag: (place, value) for tag, place, value in fields(record)}
    except Refused as refusal:
        return "%d 0 %d -" % refusal.args
    for tag in tags:
        if tag in present:
            place, value = present[tag]
            return "0 %d %d %s" % (tag, place, value.hex() or "-")
    return "11 0 0 -"


def finger(words, record):
    try:
        hashed = b"".join(value for tag, _, value in fields(record) if tag <= 4)
    except Refused as refusal:
        return "%d %d 0 %016x" % (*refusal.args, 0)
    stream = opening(words[0], words[1:], True, False)
    for byte in hashed:
        push(stream, byte)
    return "0 0 0 %016x" % finish(stream)[1]


def bytes_of(word):
    return b"" if word == "-" else bytes.fromhex(word)


def answer(request):
    kind, *words = request.split(" ")
    if kind == "read":
        return read(bytes_of(words[0]))
    if kind == "find":
        return find(bytes_of(words[0]), bytes_of(words[1]))
    if kind == "finger":
        return finger([int(word, 16) for word in words[:8]], bytes_of(words[8]))
    return "error"


def cases_of(path):
    for line in open(path, encoding="ascii"):
        line = line.rstrip("\n")
        if line and not line.startswith("#"):
            yield line.split(" = ")


# Our own cases


def field(tag, value, size=None):
    size = len(value) if size is None else size
    return bytes([tag, size % 256, size // 256]) + value


NUMBER, TITLE = field(1, b"1988.12"), field(2, "Théière".encode())
PLACE, NOTE = field(3, "Réserve 2".encode()), field(4, "prêt, à rendre".encode())
LATER = field(130, b"later") + field(255, b"")
GOOD = NUMBER + TITLE + PLACE + NOTE + LATER
SMALL = field(1, b"A") + field(2, b"")
SECRETS = [" ".join(["%016x" % 0] * 8), " ".join("%016x" % (0x0123456789ABCDEF * (i + 1) % 2**64) for i in range(8))]


def refusals():
    """Each refusal of a field in the record's first field and in its last."""
    for start in (b"", SMALL, GOOD[: -len(field(255, b""))]):
        for last in (b"\x01", b"\x80\x00", b"\x00\x00\x00", b"\x05\x00\x00", b"\x7f\x00\x00"):
            yield start + last
        for tag in (1, 2, 3, 4, 128, 130, 254, 255):
            lower, upper = TABLE[tag]
            for size in sorted({lower, lower - 1 if lower else 0, upper, min(upper + 1, 65535)}):
                value = bytes(size % 251 + i % 5 for i in range(min(size, 70)))
                yield start + field(tag, value, size)
                yield start + field(tag, value[: size // 2], size)
    for tags in ((1,), (2,), (1, 3), (2, 3), (3, 4), (128,), (2, 1), (1, 1, 2), (1, 2, 2), (1, 2, 4, 3)):
        yield b"".join(field(tag, b"x") for tag in tags)


def long_records():
    """8,190 to 8,194 bytes, good as far as their length goes, and one that is cut, too."""
    for length in (8190, 8191, 8192, 8193, 8194):
        body = SMALL + field(4, b"n" * 4096)
        yield body + field(200, b"\xff" * (length - len(body) - 3))
    yield SMALL + field(4, b"n" * 4096) + field(200, b"\xff" * 4083, 4084)
    yield SMALL + field(200, b"", 65535)


def own_cases():
    for cut in range(len(GOOD) + 1):
        yield "read " + (GOOD[:cut].hex() or "-")
    for tag in range(256):
        yield "read " + field(tag, b"v").hex()
        yield "read " + (SMALL + field(tag, b"v")).hex()
    for record in refusals():
        yield "read " + record.hex()
    for record in long_records():
        yield "read " + record.hex()
    for tags in ("-", "00", "05", "04", "0401", "0104", "03ff82", "82ff03", "ff", "80", "060708", "0203020302"):
        for record in (GOOD, SMALL, NUMBER, b"", SMALL + b"\x03\x00"):
            yield "find %s %s" % (record.hex() or "-", tags)
    for secrets in SECRETS:
        for record in (GOOD, NUMBER + TITLE, NUMBER + TITLE + PLACE, SMALL, SMALL + LATER, NUMBER, b"", GOOD[:-1]):
            yield "finger %s %s" % (secrets, record.hex() or "-")
    for record in list(long_records())[2:4]:
        yield "finger %s %s" % (SECRETS[1], record.hex())
    yield "unknown 00"


def picked(paths):
    """Every fourth short case of each file."""
    for path in paths:
        short = [case for case in cases_of(path) if len(case[0]) < 200]
        yield from short[::4]


def main():
    command, *paths = sys.argv[1:]
    if command == "check":
        wrong = [case for path in paths for case in cases_of(path) if answer(case[0]) != case[1]]
        for request, stored in wrong[:5]:
            print("%s = %s, stored %s" % (request[:200], answer(request), stored))
        print("%d differ" % len(wrong))
        sys.exit(1 if wrong else 0)
    if command in ("cases", "again"):
        print("# cases of our own about records: request = answer")
        for request in own_cases():
            print("%s = %s" % (request, answer(request)))
    if command == "again":
        text = open(paths[0], encoding="ascii").read()
        print(PICKED + text.partition(PICKED)[2].partition("\n#")[0])
    if command == "cases":
        print(PICKED)
        for request, stored in picked(paths):
            print("%s = %s" % (request, stored))
    if command == "answers":
        for request, stored in cases_of(paths[0]):
            cuts = ""
            if request.startswith("finger"):
                record = bytes_of(request.split(" ")[9])
                cuts = " %d" % (len(record) if stored.startswith("0 ") else 0)
            print(stored + cuts)


if __name__ == "__main__":
    main()
