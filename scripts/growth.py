#!/usr/bin/env python3
"""Plays sessions and prints, for each size, time, peak memory and instructions a command or a row.

usage: growth.py PROGRAM [SIZE ..]
       growth.py PROGRAM statements [SIZE ..]

PROGRAM is the built pgplay (`rt run` in crates/pgplay leaves it in that crate's out folder). It is run with
the word `play` and a session text on standard input, and with `gen`, the size and the seed 7, up to 100,000
commands. A size is a number of commands; without one they are 1,000, 10,000 and 100,000. Replies of `play`
have columns, a row, a completion and ReadyForQuery; above 400,000 commands they are empty, so that the text
keeps within 64 MiB. With the word `statements` two other sessions are played: one query of a prepared
statement whose reply has as many rows as the size says, of four columns (int4, text, int8, bool, in binary
form), and executions of a prepared statement with one value, as many as the size says, on eight handles that
each prepare it first. Instructions are counted by valgrind's callgrind in a second run, up to 100,000 commands
and where valgrind is installed: they are steady to a part in a thousand, where seconds are not, but a clear or
a copy of some kilobytes counts as one for each byte. A peak below this script's own, about 10 MiB, is shown as
that. Nothing is written but what is printed.
"""
import os
import re
import shutil
import struct
import subprocess
import sys
import tempfile
import time

SIZES = (1000, 10000, 100000)
HANDLES = 8
COLUMNS = '54 0000001a 0001 7600 00000000 0000 00000017 0004 ffffffff 0000'.replace(' ', '')
ROW = '440000000b00010000000131'
DONE = '430000000d53454c4543542031005a0000000549'
EMPTY = '49000000045a0000000549'
READY = '5a0000000549'
STARTED = 'step 5200000008000000005a0000000549'
# With longer replies the text of more commands would pass 64 MiB.
MOST_ROWS = 400000
# Callgrind takes about a minute for these.
MOST_COUNTED = 100000
# The most commands that `gen` makes.
MOST_MADE = 100000
SEED = '7'


def session(size):
    """A text of `size` queries, each with its reply."""
    reply = COLUMNS + ROW + DONE if size <= MOST_ROWS else EMPTY
    lines = ['config "user=a"']
    for handle in range(HANDLES):
        lines.append('handle')
        lines += ['simple "q%d"' % i for i in range(handle, size, HANDLES)]
    lines.append(STARTED)
    lines += ['step ' + reply] * size
    return '\n'.join(lines) + '\n'


def message(tag, body):
    """A message of the server, in hex."""
    return (tag.encode() + struct.pack('>I', len(body) + 4) + body).hex()


def described(types):
    """What a prepare is told of the parameters, whose types have these oids."""
    count = struct.pack('>H', len(types))
    return message('1', b'') + message('t', count + b''.join(struct.pack('>I', oid) for oid in types))


def rows_session(size):
    """A text of one query of a prepared statement, whose reply has `size` rows."""
    columns = (('id', 23, 4), ('name', 25, -1), ('total', 20, 8), ('is_open', 16, 1))
    fields = b''.join(name.encode() + b'\0' + struct.pack('>IHIhiH', 0, 0, oid, width, -1, 1) for name, oid, width in columns)
    head = message('T', struct.pack('>H', len(columns)) + fields)
    reply = [message('2', b'')]
    for i in range(size):
        cells = (struct.pack('>i', i), b'the value for %d' % i, struct.pack('>q', 1000 * i), b'\1')
        reply.append(message('D', struct.pack('>H', len(cells)) + b''.join(struct.pack('>i', len(it)) + it for it in cells)))
    reply += [message('C', b'SELECT %d\0' % size), READY]
    lines = ['config "user=a"', 'handle', 'prepare 0 "q"', 'query @0', STARTED, 'step ' + described([]) + head + READY, 'step ' + ''.join(reply)]
    return '\n'.join(lines) + '\n'


def executions_session(size):
    """A text of `size` executions of prepared statements, each with its reply."""
    lines = ['config "user=a"']
    for handle in range(HANDLES):
        lines += ['handle', 'prepare 0 "q"']
        lines += ['execute @0 %d' % i for i in range(handle, size, HANDLES)]
    lines.append(STARTED)
    lines += ['step ' + described([23]) + message('n', b'') + READY] * HANDLES
    lines += ['step ' + message('2', b'') + message('C', b'UPDATE 1\0') + READY] * size
    return '\n'.join(lines) + '\n'


def run(program, words, text, is_whole):
    """Seconds and peak memory in MiB of one run. It ends this script where its output isn't whole."""
    with tempfile.TemporaryFile() as output:
        text.seek(0)
        begun = time.monotonic()
        child = os.fork()
        if child == 0:
            os.dup2(text.fileno(), 0)
            os.dup2(output.fileno(), 1)
            os.execv(program, [program, *words])
        _, status, used = os.wait4(child, 0)
        seconds = time.monotonic() - begun
        output.seek(0)
        is_well = is_whole(output)
    if status != 0 or not is_well:
        sys.exit('%s: status %d, or an output that is not whole' % (' '.join(words), status))
    return seconds, used.ru_maxrss / 1024


def instructions(program, words, text):
    """How many instructions one run takes, by callgrind."""
    counted = ['valgrind', '--tool=callgrind', '--callgrind-out-file=/dev/null', program, *words]
    text.seek(0)
    ran = subprocess.run(counted, stdin=text, stdout=subprocess.DEVNULL, stderr=subprocess.PIPE)
    found = re.search(rb'Collected : (\d+)', ran.stderr)
    if ran.returncode != 0 or not found:
        sys.exit('callgrind gave no count: %s' % ran.stderr.decode(errors='replace'))
    return int(found[1])


def figures(program, words, text, size, is_whole):
    """A size's figures as they are printed: seconds, MiB, instructions a command."""
    seconds, memory = run(program, words, text, is_whole)
    counted = '-'
    if size <= MOST_COUNTED and shutil.which('valgrind'):
        counted = '%.0f' % (instructions(program, words, text) / size)
    return '%8.2f %8.1f %12s' % (seconds, memory, counted)


def measure(program, size):
    """Prints what the two words take for a session of this size. `gen` makes sessions up to its own limit."""
    with tempfile.TemporaryFile() as text:
        text.write(session(size).encode())
        text.flush()
        answered = lambda report: sum(line.startswith(b'answer ') for line in report) == size
        played = figures(program, ['play'], text, size, answered)
    made = ''
    if size <= MOST_MADE:
        summed = lambda summary: b'requests %d\n' % size in summary.readlines()
        with tempfile.TemporaryFile() as nothing:
            made = figures(program, ['gen', str(size), SEED], nothing, size, summed)
    print('%8d |%s |%s' % (size, played, made or '%8s %8s %12s' % ('-', '-', '-')), flush=True)


def measure_text(program, text_of, size, is_told):
    """What `play` takes for a text of this size, whose report has as many such lines."""
    with tempfile.TemporaryFile() as text:
        text.write(text_of(size).encode())
        text.flush()
        is_whole = lambda report: sum(map(is_told, report)) == size
        return figures(program, ['play'], text, size, is_whole)


def measure_statements(program, sizes):
    """Prints what a long query takes a row, and what executions take."""
    print('         | rows of one query             | executions')
    print('    size | seconds     MiB instructions  | seconds     MiB instructions')
    is_row = lambda line: line.startswith(b'row ')
    is_count = lambda line: line.endswith(b' count 1\n')
    for size in sizes:
        rows = measure_text(program, rows_session, size, is_row)
        executed = measure_text(program, executions_session, size, is_count)
        print('%8d |%s |%s' % (size, rows, executed), flush=True)


def main():
    if len(sys.argv) < 2:
        sys.exit(__doc__)
    if sys.argv[2:3] == ['statements']:
        return measure_statements(sys.argv[1], [int(word) for word in sys.argv[3:]] or SIZES)
    sizes = [int(word) for word in sys.argv[2:]] or SIZES
    print('         | play                          | gen')
    print('commands | seconds     MiB instructions  | seconds     MiB instructions')
    for size in sizes:
        measure(sys.argv[1], size)


main()
