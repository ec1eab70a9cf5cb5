"""The calls on an office sheet beside python's csv module: agree.py LIBRARY TEST.

LIBRARY is the archive as a shared library; TEST is one of the functions here that take the calls, and fails by an error. Bytes pass csv as
latin-1, one character each, and every list is made from a fixed seed.
"""

import csv
import io
import random
import re
import sys

from calls import Calls

HIGHEST = 4294967295
ROWS = 200_000
BYTES = bytes(range(1, 256))
# A sheet as document 02 has it, byte for byte: the csv module reads more than that (see `judged`).
FIELD = rb'(?:"(?:[^"\0]|"")*"|[^",\r\n\0]*)'
ROW = FIELD + rb',(?:"[0-9]+"|[0-9]+)'
SHEET = re.compile(rb"(?:" + ROW + rb"(?:\r\n" + ROW + rb")*(?:\r\n)?)?")


def identifier(chance):
    return chance.choice((chance.randrange(HIGHEST + 1), chance.randrange(1000), 10 ** chance.randrange(10), HIGHEST))


def names(chance, count):
    """Names of up to 24 bytes: any, or mostly those that matter to a sheet; and a few that are long."""
    pools = (BYTES, b'",\r\n ab', b'"', b"\r\n", b"abc ")
    for _ in range(count):
        yield bytes(chance.choices(chance.choice(pools), k=chance.randrange(25)))
    for byte in b'",\r\na':
        yield bytes([byte]) * 100_000


def short_names():
    """Every name of no byte, one or two."""
    yield b""
    for first in BYTES:
        yield bytes([first])
        yield from (bytes([first, second]) for second in BYTES)


def hubs(seed, count=ROWS):
    chance = random.Random(seed)
    every = list(names(chance, count))
    if count == ROWS:
        every += short_names()
    return [(name, identifier(chance)) for name in every]


def csv_written(rows, quoting=csv.QUOTE_MINIMAL):
    text = io.StringIO(newline="")
    csv.writer(text, quoting=quoting).writerows((name.decode("latin-1"), number) for name, number in rows)
    return text.getvalue().encode("latin-1")


def csv_read(text):
    """The list that csv finds; a row that is not a name and digits is kept as it is, and equal to no hub."""
    reader = csv.reader(io.StringIO(text.decode("latin-1"), newline=""), strict=True)
    return [
        (row[0].encode("latin-1"), int(row[1])) if len(row) == 2 and re.fullmatch("[0-9]+", row[1]) else row
        for row in reader
    ]


def reads_what_csv_writes(calls):
    """Whatever csv quotes: what it must, every name, or all."""
    for seed, quoting in enumerate((csv.QUOTE_MINIMAL, csv.QUOTE_NONNUMERIC, csv.QUOTE_ALL)):
        rows = hubs(seed)
        text = csv_written(rows, quoting)
        assert calls.read(text) == rows
        assert calls.read(text.removesuffix(b"\r\n")) == rows
    return f"{3 * len(rows)} rows"


def csv_reads_what_is_written(calls):
    rows = hubs(3)
    assert csv_read(calls.write(rows)) == rows
    return f"{len(rows)} rows"


def same_bytes(calls):
    """The same sheet, byte for byte, on every name: csv quotes a field that holds its quote, its delimiter or a character of its line end,
    which are the four bytes of document 02. No name was found on which they differ: not an empty one, which csv quotes only where it is
    alone in its row, nor one with blanks around it, nor one of digits. (They would differ if csv were told to end its rows in LF alone:
    then up to python 3.12 it leaves CR unquoted, in just the names that hold a CR and none of the other three.)
    """
    rows = hubs(4)
    assert calls.write(rows) == csv_written(rows)
    return f"{len(rows)} rows"


def damaged(chance, text):
    """The text with a few bytes put in, taken out or changed."""
    text = bytearray(text)
    for _ in range(chance.randrange(1, 3)):
        at = chance.randrange(len(text) + 1)
        put = chance.choice((b"", b'"', b",", b"\r", b"\n", b"\r\n", b"\0", b"7", b"a", b'""', b"0000000000"))
        text[at : at + chance.randrange(2)] = put
    return bytes(text)


def judged(calls):
    """Damaged sheets: 19 just where the pattern says so, 20 where a number is too large; and what is read, csv reads so too.

    Not the other way: csv takes a row that ends in CR or LF alone, an empty line, and a quote inside a field that does not begin with one.
    """
    chance = random.Random(5)
    seen = {0: 0, 19: 0, 20: 0}
    for _ in range(60_000):
        rows = [(bytes(chance.choices(b'",\r\nabc\xff', k=chance.randrange(4))), identifier(chance)) for _ in range(chance.randrange(4))]
        text = damaged(chance, csv_written(rows, chance.choice((csv.QUOTE_MINIMAL, csv.QUOTE_ALL))))
        answer = calls.read(text)
        expected = 19
        if SHEET.fullmatch(text):
            expected = csv_read(text)
            if any(number > HIGHEST for _, number in expected):
                expected = 20
        assert answer == expected, (text, answer, expected)
        seen[answer if isinstance(answer, int) else 0] += 1
    assert min(seen.values()) > 1000, seen
    return ", ".join(f"{code}: {count}" for code, count in seen.items())


def damage_is_seen(calls):
    """A wrong byte anywhere in a sheet, on the way from or to csv, makes another list of it, or none: these tests would see one."""
    rows = hubs(6, 200)[:200]
    text = calls.write(rows)
    for at in range(len(text)):
        wrong = bytearray(text)
        wrong[at] = random.Random(at).choice([byte for byte in BYTES if byte != text[at]])
        assert calls.read(bytes(wrong)) != rows, (at, wrong[at])
        try:
            assert csv_read(bytes(wrong)) != rows, (at, wrong[at])
        except csv.Error:
            pass
    return f"{len(text)} bytes"


if __name__ == "__main__":
    test = globals()[sys.argv[2]]
    print(f"{test.__name__}: {test(Calls(sys.argv[1]))}")
