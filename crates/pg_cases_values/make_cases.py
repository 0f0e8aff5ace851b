#!/usr/bin/env python3
"""Makes cases of values from a real server: its binary form, and what its text form says they are.

Usage: make_cases.py PORT, with psql on the path and a server that lets role `a` into database `a`. Prints the lines of stdout that
are from a server; up to ` =>` they are those of stdin.
The text of a value is read here, so that what is expected comes from the server's text output and not from the program.
"""
import datetime
import re
import subprocess
import sys
from decimal import Decimal

PORT = sys.argv[1]


def psql(args):
    return subprocess.run(["psql", "-h", "127.0.0.1", "-p", PORT, "-U", "a", "-d", "a", "-X", "-q", *args],
                          check=True, capture_output=True).stdout


def text(expr):
    return psql(["-At", "-c", f"set timezone to 'UTC'; set datestyle to iso; select {expr}"]).decode()[:-1]


def binary(expr):
    got = psql(["-c", f"copy (select {expr}) to stdout with (format binary)"])
    field = got[19 + 2:]
    size = int.from_bytes(field[:4], "big", signed=True)
    return "null" if size < 0 else field[4:4 + size].hex()


def listed(items):
    return "List { items: [" + ", ".join(items) + "] }"


def blob(bs):
    return "Blob { bytes: [" + ", ".join(str(b) for b in bs) + "] }"


def words(s):
    for plain, escaped in ("\\", "\\\\"), ('"', '\\"'), ("\t", "\\t"), ("\n", "\\n"), ("\v", "\\u{b}"):
        s = s.replace(plain, escaped)
    return f'Text {{ string: "{s}" }}'


def number(s):
    if s == "NaN":
        return "NotANumber"
    scale = len(s.split(".")[1]) if "." in s else 0
    return f"Numeric {{ unscaled: {int(s.replace('.', ''))}, scale: {scale} }}"


def day_number(s, before):
    """Days from 2000-01-01; Python's calendar ends at 9999 and begins at 1, so whole cycles of 400 years are taken off or added."""
    year, month, date = (int(n) for n in s.split("-"))
    year = 1 - year if before else year
    cycles = (year - 1) // 400
    return (datetime.date(year - 400 * cycles, month, date) - datetime.date(2000, 1, 1)).days + 146097 * cycles


def days(s):
    if s in ("infinity", "-infinity"):
        return 2**31 - 1 if s == "infinity" else -2**31
    return day_number(s.removesuffix(" BC"), s.endswith(" BC"))


def stamp(s):
    if s in ("infinity", "-infinity"):
        return f"Timestamp({2**63 - 1 if s == 'infinity' else -2**63})"
    before, s = s.endswith(" BC"), s.removesuffix(" BC").removesuffix("+00")
    date, time = s.split(" ")
    hours, minutes, seconds = time.split(":")
    micros = int(seconds.split(".")[0]) * 1000000 + (int(seconds.split(".")[1].ljust(6, "0")) if "." in seconds else 0)
    return f"Timestamp({day_number(date, before) * 86400000000 + (int(hours) * 60 + int(minutes)) * 60000000 + micros})"


def cut(s):
    """The parts of a text form between commas, unquoted; None for one that is left out or is NULL."""
    parts, i, now, was_quoted = [], 0, "", False
    while i <= len(s):
        if i == len(s) or s[i] == ",":
            parts.append(None if now in ("", "NULL") and not was_quoted else now)
            now, was_quoted, i = "", False, i + 1
        elif s[i] == '"':
            was_quoted, i = True, i + 1
            while not (s[i] == '"' and s[i + 1:i + 2] != '"'):
                i += 1 if s[i] in '\\"' else 0
                now += s[i]
                i += 1
            i += 1
        else:
            now += s[i]
            i += 1
    return parts


def array(item):
    def read(s):
        lowers = [int(n) for n in re.findall(r"\[(-?\d+):", s.split("=")[0])] if "=" in s else []
        s = s.split("=", 1)[1] if lowers else s
        if s == "{}":
            return f"Array {{ dims: {listed([])}, items: {listed([])} }}"
        depth = len(s) - len(s.lstrip("{"))
        lens, flat = [], s
        for d in range(depth):
            inner = flat[1:-1]
            if inner.startswith("{"):
                pieces = re.split(r"(?<=\}),(?=\{)", inner) if d == depth - 2 else split_top(inner)
                lens.append(len(pieces))
                flat = pieces[0]
            else:
                lens.append(len(cut(inner)))
        leaves = cut(re.sub(r"[{}]", "", s) if depth > 1 else s[1:-1])
        lowers = lowers or [1] * depth
        dims = [f"Dim {{ len: {n}, lower: {low} }}" for n, low in zip(lens, lowers)]
        return f"Array {{ dims: {listed(dims)}, items: {listed(['Null' if x is None else item(x) for x in leaves])} }}"
    return read


def split_top(s):
    parts, depth, now = [], 0, ""
    for c in s:
        depth += {"{": 1, "}": -1}.get(c, 0)
        if c == "," and depth == 0:
            parts.append(now)
            now = ""
        else:
            now += c
    return parts + [now]


def between(item):
    def read(s):
        if s == "empty":
            return f"Range {{ empty: true, lower: Infinite, upper: Infinite, bounds: {listed([])} }}"
        low, high = cut(s[1:-1])
        kind = {"[": "Inclusive", "]": "Inclusive", "(": "Exclusive", ")": "Exclusive"}
        ends = ["Infinite" if low is None else kind[s[0]], "Infinite" if high is None else kind[s[-1]]]
        return f"Range {{ empty: false, lower: {ends[0]}, upper: {ends[1]}, bounds: {listed([item(x) for x in (low, high) if x is not None])} }}"
    return read


def row(*items):
    return lambda s: f"Composite({listed(['Null' if x is None else item(x) for x, item in zip(cut(s[1:-1]), items)])})"


def integer(s):
    return f"Int({int(s)})"


def truth(s):
    return f"Bool({'true' if s in ('t', 'true') else 'false'})"


def chars(s):
    return f"Text({words(s)})"


def raw(s):
    return f"Bytes({blob(bytes.fromhex(s[2:]))})"


def day(s):
    return f"Date({days(s)})"


def uuid(s):
    return f"Uuid({blob(bytes.fromhex(s.replace('-', '')))})"


def label(s):
    return f"Label({words(s)})"


psql(["-c", "drop type if exists s.two cascade; drop type if exists s.five cascade; create type s.two as (n int4, t text);"
      "create type s.five as (n int4, d numeric, e date, u uuid, b bool)"])
OIDS = {name: psql(["-At", "-c", f"select '{name}'::regtype::oid"]).decode().strip()
        for name in ("s.mood", "s.small", "s.smaller", "s.pair", "s.span", "s.mood[]", "s.two", "s.five", "s.two[]")}
MOOD = f"enum={OIDS['s.mood']}:sad,ok,happy"
TWO = f"row={OIDS['s.two']}:23,25"
NUMBERS = ["0", "0.0", "0.000", "1", "-1", "10", "100", "1000", "9999", "10000", "10001", "100000000", "12.5", "-12.5", "0.1", "0.01",
           "0.001", "0.0001", "0.00001", "0.00012", "1.0001", "123456789.987654321", "99999999999999999999999999999999999999",
           "-99999999999999999999999999999999999999", "0.00000000000000000000000000000000000001", "9.9999999999999999999999999999999999999",
           "12345678901234567890", "1e20", "5000.5000", "20000000.00000002", "'NaN'", "1.10", "1.100", "-0.5", "0.50", "1e37", "43210.01234",
           "1e4", "1e8", "1e12", "123.4", "1234.5", "12345.6", "123456.7", "0.9999", "9999.9999"]
DATES = ["0044-03-15 BC", "0001-12-31 BC", "4713-11-24 BC", "0005-02-29 BC", "5874897-12-31", "12345-06-07", "2100-03-01", "2001-01-01", "2000-12-31", "2000-01-01", "1999-12-31", "2000-02-29", "1970-01-01", "0001-01-01", "9999-12-31", "2024-02-29", "1900-03-01", "infinity", "-infinity", "2038-01-19"]
TIMES = ["0044-03-15 12:00:00.25 BC", "4713-11-24 00:00:00 BC", "294276-12-31 23:59:59.999999", "2000-01-01 00:00:00.1", "2000-01-01 00:00:00", "1999-12-31 23:59:59.999999", "2024-02-29 12:34:56.5", "1970-01-01 00:00:00", "0001-01-01 00:00:01",
         "9999-12-31 23:59:59", "infinity", "-infinity", "2001-02-03 04:05:06.000001"]
TABLE = [
    ("16", "bool", ["true", "false"], truth),
    ("18", '"char"', ["'a'", "'z'", "'0'"], lambda s: f"Int({ord(s)})"),
    ("21", "int2", ["0", "1", "'-1'", "32767", "'-32768'"], integer),
    ("23", "int4", ["0", "1", "'-1'", "2147483647", "'-2147483648'", "null"], integer),
    ("20", "int8", ["0", "1", "'-1'", "9223372036854775807", "'-9223372036854775808'"], integer),
    ("26", "oid", ["0", "1", "4294967295"], integer),
    ("25", "text", ["''", "'a'", "'two words'", "'a\"b'"], chars),
    ("1043", "varchar", ["'x'", "'xyz'"], chars),
    ("1042", "char(4)", ["'ab'"], lambda s: chars(s.ljust(4))),
    ("19", "name", ["'pg_type'"], chars),
    ("17", "bytea", ["'\\x'", "'\\x00ff'", "'\\xdeadbeef'"], raw),
    ("1700", "numeric", NUMBERS, number),
    ("1082", "date", [f"'{d}'" for d in DATES], day),
    ("1114", "timestamp", [f"'{t}'" for t in TIMES], stamp),
    ("1184", "timestamptz", [f"'{t}+00'" if "inf" not in t else f"'{t}'" for t in TIMES], stamp),
    ("2950", "uuid", ["'00000000-0000-0000-0000-000000000000'", "'a0eebc99-9c0b-4ef8-bb6d-6bb9bd380a11'", "'ffffffff-ffff-ffff-ffff-ffffffffffff'"], uuid),
    (MOOD, "s.mood", ["'sad'", "'ok'", "'happy'", "null"], label),
    (f"domain={OIDS['s.small']}.23", "s.small", ["1", "99", "'-5'"], integer),
    (f"domain={OIDS['s.smaller']}.domain={OIDS['s.small']}.23", "s.smaller", ["1", "9"], integer),
    ("array=1007.23", "int4[]", ["'{}'", "'{1}'", "'{1,NULL}'", "'{NULL}'", "'{{1,2},{3,4}}'", "'[0:1]={5,6}'", "'{{{1},{2}}}'", "'{1,2,3,4,5,6,7,8,9,10}'",
                                 "'[-2:0]={1,2,3}'", "'[2:3][-1:0]={{1,2},{3,4}}'", "'{{{{{{7}}}}}}'", "'{-1,2147483647,-2147483648}'"], array(integer)),
    ("array=1016.20", "int8[]", ["'{}'", "'{9223372036854775807,NULL,0}'"], array(integer)),
    ("array=1005.21", "int2[]", ["'{1,2}'"], array(integer)),
    ("array=1000.16", "bool[]", ["'{t,f,NULL}'"], array(truth)),
    ("array=1009.25", "text[]", ["'{a,b}'", "'{\"\",NULL,\"NULL\"}'", "'{\"two words\",\"a,b\"}'", "'{\"a\\\\b\"}'",
                               "'{\"a\\\"b\",\"{}\",null,\"nUlL\",\"(\",\"[\"}'", "array[e'\\t', e'a\\nb', e'\\v', 'é', '\"']"], array(chars)),
    ("array=1001.17", "bytea[]", ["array['\\x00ff'::bytea, '\\x'::bytea, null]"], array(raw)),
    ("array=1015.1043", "varchar[]", ["'{a,NULL}'"], array(chars)),
    ("array=1231.1700", "numeric[]", ["'{1.5,NULL,NaN}'", "'{0.001,100000}'", "'{}'"], array(number)),
    ("array=1182.1082", "date[]", ["'{2000-01-02,NULL}'", "'{infinity}'"], array(day)),
    ("array=1115.1114", "timestamp[]", ["'{\"2000-01-01 00:00:01\"}'"], array(stamp)),
    ("array=2951.2950", "uuid[]", ["'{a0eebc99-9c0b-4ef8-bb6d-6bb9bd380a11,NULL}'"], array(uuid)),
    (f"array={OIDS['s.mood[]']}.{MOOD}", "s.mood[]", ["'{sad,NULL,happy}'", "'{}'"], array(label)),
    ("range=3904.23", "int4range", ["'[1,5)'", "'empty'", "'(,)'", "'[3,)'", "'(,3)'", "'[1,1]'", "'(-5,-2]'", "null"], between(integer)),
    ("range=3926.20", "int8range", ["'[1,5)'", "'(,9223372036854775807)'", "'empty'"], between(integer)),
    ("range=3906.1700", "numrange", ["'[1.5,2.5]'", "'(1.5,2.5)'", "'(1,2]'", "'[0,)'", "'(,0.01]'", "'empty'", "'[-1.0,1.0)'"], between(number)),
    ("range=3912.1082", "daterange", ["'[\"0044-03-15 BC\",2000-01-01)'","'[2000-01-01,2000-02-01)'", "'(,)'", "'(,2000-01-01)'", "'[infinity,infinity]'"], between(day)),
    ("range=3908.1114", "tsrange", ["'[\"2000-01-01 00:00:00\",\"2000-01-02 00:00:00\")'", "'(\"2000-01-01 00:00:00\",]'", "'empty'"], between(stamp)),
    ("range=3910.1184", "tstzrange", ["'[\"2000-01-01 00:00:00+00\",)'"], between(stamp)),
    (f"range={OIDS['s.span']}.23", "s.span", ["'[1,5)'", "'(1,5]'", "'[1,5]'", "'(,5]'", "'empty'"], between(integer)),
    ("array=3905.range=3904.23", "int4range[]", ["'{\"[1,5)\",empty,NULL}'", "'{\"(,)\"}'", "'{}'"], array(between(integer))),
    (TWO, "s.two", ["'(1,a)'", "'(,)'", "'(-1,\"two words\")'", "'(,\"\")'", "'(5,)'", "null"], row(integer, chars)),
    (f"row={OIDS['s.five']}:23,1700,1082,2950,16", "s.five", ["'(1,1.5,2000-01-02,a0eebc99-9c0b-4ef8-bb6d-6bb9bd380a11,t)'", "'(,,,,)'", "'(7,NaN,-infinity,,f)'"], row(integer, number, day, uuid, truth)),
    (f"array={OIDS['s.two[]']}.{TWO}", "s.two[]", ["'{\"(1,a)\",NULL}'", "'{\"(,)\",\"(2,b)\"}'", "array[row(1, 'a\"b\\c'), row(2, 'x,y'), row(3, ''), row(4, '{}'), row(5, '(')]::s.two[]"],
     array(row(integer, chars))),
    ("array=3907.range=3906.1700", "numrange[]", ["array['[1.5,2)'::numrange, 'empty'::numrange]"], array(between(number))),
]



def word(ty, hexes, expr, reading):
    """One line. A "char" is printed as its number, and a timestamptz without its zone."""
    null = hexes == "null"
    given = "NULL" if null else text(expr)
    shown = str(ord(given)) if ty == "18" else given.replace("+00", "") if "tstz" in expr or "timestamptz" in expr else given
    quoted = "".join(c if " " <= c <= "~" and c not in '\\"' else {"\\": "\\\\", '"': '\\"', "\n": "\\n"}.get(c)
                     or "".join(f"\\x{b:02x}" for b in c.encode()) for c in shown)
    debug = "Null" if null else reading(given)
    print("read", ty, hexes or '""', f"select {expr}", "=>", debug, f'"{quoted}"', "same")


print("# Values of a real server (PostgreSQL 15), each with the statement that made it: the bytes are its binary output, the text its text output.")
for kind, name, values, reading in TABLE:
    for value in values:
        expr = f"{value}::{name}"
        word(kind, binary(expr), expr, reading)
for n in list(range(-12, 12)):
    expr = f"(1234567890123456789::numeric * 10 ^ ({n})::numeric)::numeric(38,{max(0, 12 - n) % 20})"
    word("1700", binary(expr), expr, number)
