#!/usr/bin/env python3
"""Runs executions of one statement over the hub's core, and prints for each number of them seconds and peak memory.

usage: executions.py PROGRAM [COUNT ..]

PROGRAM is the built pg_drives (`rt run` in crates/pg_drives leaves it in that crate's out folder). It is given one
line on standard input, whose reply is a completion and ReadyForQuery; without a count, none, 1,000, 100,000 and
1,000,000 executions are run. The last column is the peak above that of no executions. A peak is the program's VmHWM,
read from /proc until it ends. Nothing is written but what is printed.
"""
import re
import subprocess
import sys
import time

COUNTS = (1000, 100000, 1000000)
LINE = r'executions %d "2\0\0\0\x04C\0\0\0\x0dDELETE 3\0Z\0\0\0\x05I" : "R\0\0\0\x08\0\0\0\0Z\0\0\0\x05I"'
# How often the peak is read, in seconds.
PAUSE = 0.002


def peak_of(child):
    """The largest memory in KiB so far, None where the program has ended."""
    try:
        with open('/proc/%d/status' % child.pid) as status:
            found = re.search(r'VmHWM:\s+(\d+) kB', status.read())
    except OSError:
        return None
    return int(found[1]) if found else None


def run(program, count):
    """Seconds and peak memory in KiB of one run. It ends this script where the answer isn't that of so many executions."""
    begun = time.monotonic()
    child = subprocess.Popen([program], stdin=subprocess.PIPE, stdout=subprocess.PIPE)
    child.stdin.write((LINE % count + '\n').encode())
    child.stdin.close()
    peak = 0
    while child.poll() is None:
        peak = max(peak, peak_of(child) or 0)
        time.sleep(PAUSE)
    seconds = time.monotonic() - begun
    told = child.stdout.read()
    if child.returncode != 0 or b' => affected %d holds 0 and 0 sent ' % (3 * count) not in told:
        sys.exit('%d executions: status %d, %r' % (count, child.returncode, told[-80:]))
    return seconds, peak


def main():
    if len(sys.argv) < 2:
        sys.exit(__doc__)
    _, start = run(sys.argv[1], 0)
    print('executions | seconds  peak KiB  above the start')
    print('%10d | %7s  %8d  %15d' % (0, '-', start, 0), flush=True)
    for count in [int(word) for word in sys.argv[2:]] or COUNTS:
        seconds, peak = run(sys.argv[1], count)
        print('%10d | %7.2f  %8d  %15d' % (count, seconds, peak, peak - start), flush=True)


main()
