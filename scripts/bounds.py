#!/usr/bin/env python3
"""Plays sessions whose server describes types that grow without end, and shows where a lookup stops.

usage: bounds.py PROGRAM

PROGRAM is the built pgplay. A composite has two fields of the next one, which has two of the next, and so on: so many levels double the
number of types that it is built of. A domain stands over the one before it, one more with each prepare: so many prepares are as many
levels. A composite of many fields, each of the next such one, is large after two levels. For each session it prints the status, what was
answered last, seconds and peak memory, and ends with status 1 where a status isn't the one that the bounds give (docs/COMMANDS.md).
"""
import resource
import struct
import subprocess
import sys
import time

INT4 = 23
FIRST = 90000


def message(tag, body=b''):
    return tag + struct.pack('>I', len(body) + 4) + body


def text(it):
    return it.encode() + b'\0'


def cells(*values):
    return message(b'D', struct.pack('>H', len(values)) + b''.join(struct.pack('>i', -1) if it is None else struct.pack('>I', len(it)) + it for it in values))


def number(it):
    return struct.pack('>I', it)


def columns(*fields):
    body = b''.join(text(name) + struct.pack('>IHIHIH', 0, 0, oid, 4, 0xFFFFFFFF, 0) for name, oid in fields)
    return message(b'T', struct.pack('>H', len(fields)) + body)


READY = message(b'Z', b'I')
STARTED = message(b'R', number(0)) + READY
PARSED = message(b'1')


def of_statement(parameters, fields):
    described = message(b't', struct.pack('>H', len(parameters)) + b''.join(number(it) for it in parameters))
    return PARSED + described + columns(*fields) + READY


ROW_STATEMENT = of_statement([26], [('typname', 19), ('typtype', 18), ('typelem', 26), ('rngsubtype', 26), ('typbasetype', 26), ('nspname', 19), ('typrelid', 26)])
FIELDS_STATEMENT = of_statement([26], [('attname', 19), ('atttypid', 26)])


def rows(*them):
    return message(b'2') + b''.join(them) + message(b'C', text('SELECT 1')) + READY


def type_row(kind, base=0, relation=0):
    return rows(cells(b't', kind, number(0), None, number(base), b'public', number(relation)))


def composites(levels, fields):
    """A composite in so many levels, of so many fields each."""
    out = ['config "user=a"', 'handle', 'prepare 0 "q"', 'step ' + STARTED.hex(), 'step ' + of_statement([], [('c', FIRST)]).hex(), 'step ' + ROW_STATEMENT.hex()]
    for level in range(levels):
        out.append('step ' + type_row(b'c', relation=80000 + level).hex())
        if level == 0:
            out.append('step ' + FIELDS_STATEMENT.hex())
        inner = INT4 if level == levels - 1 else FIRST + 1 + level
        out.append('step ' + rows(*[cells(b'f', number(inner)) for _ in range(fields)]).hex())
    return out


def domains(prepares):
    """So many prepares, each of a domain over the one before."""
    out = ['config "user=a"', 'handle'] + ['prepare 0 "q"'] * prepares + ['step ' + STARTED.hex()]
    for place in range(prepares):
        out.append('step ' + of_statement([], [('c', FIRST + place)]).hex())
        if place == 0:
            out.append('step ' + ROW_STATEMENT.hex())
        out.append('step ' + type_row(b'd', base=FIRST + place - 1 if place else INT4).hex())
    return out


def played(program, lines):
    began = time.monotonic()
    with subprocess.Popen([program, 'play'], stdin=subprocess.PIPE, stdout=subprocess.PIPE) as it:
        output = it.communicate(('\n'.join(lines) + '\n').encode())[0].decode()
    answers = [line for line in output.splitlines() if line.startswith('answer')]
    return it.returncode, answers[-1] if answers else '', time.monotonic() - began


def main():
    if len(sys.argv) != 2:
        sys.exit(__doc__)
    failed = 0
    for name, lines, wanted in [
        ('a domain in 1,023 levels over int4, one with each prepare', domains(1023), 0),
        ('1,024 of them', domains(1024), 5),
        ('a composite of two of the next, in 16 levels', composites(16, 2), 0),
        ('in 20 levels', composites(20, 2), 5),
        ('in 63 levels', composites(63, 2), 5),
        ('a composite of 1,000 of the next, in 2 levels', composites(2, 1000), 0),
        ('in 5 levels', composites(5, 1000), 5),
    ]:
        status, last, seconds = played(sys.argv[1], lines)
        peak = resource.getrusage(resource.RUSAGE_CHILDREN).ru_maxrss // 1024
        print(f'{"ok" if status == wanted else "WRONG"}: {name}: status {status}, {last or "no answer"}, {seconds:.2f} s, at most {peak} MiB so far')
        failed += status != wanted
    sys.exit(1 if failed else 0)


main()
