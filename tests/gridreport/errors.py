#!/usr/bin/env python3
# gridreport where a read or a write fails: the status is 1, and nothing of what comes after is written. After its grid it reads no further.
#     errors.py PROGRAM [STRACE]     without strace, no errors are injected into single calls
import sys
from failing import Program
BEFORE = b'S,0,0,16,16,2,2,1\nI,1,1,1,2,2\nQ,0,0,16,16\n'
GIVEN = BEFORE + b'G,0,0,8,8,2,1\n'
# the report is one write
LINES = [b'DOTS,1\n', b'S,2\n', b'I,1,0\n', b'Q,1,1,1\n', b'0,0,1\n1,0,0\ntotal,1\n']
program = Program(*sys.argv[1:])
program.on_failing_files(GIVEN, LINES[0])
program.on_broken_pipe()
program.ends_after('a bad first line', b'G,0,0,8,8,2,1\n', b'DOTS,1\nE,9\n')
program.ends_after('a grid', GIVEN, b''.join(LINES))
program.ends_after('a refused grid', BEFORE + b'G,0,0,0,8,2,1\n', b''.join(LINES[:-1]) + b'E,11\n')
if program.strace:
    program.expect('an interrupted read', 0, b''.join(LINES), b'', program.injected(GIVEN, 'read', 'EINTR', 1))
    program.expect('a failed read', 1, LINES[0], b'Input/output error', program.injected(GIVEN, 'read', 'EIO', 1))
    program.expect('a failed read at the end', 1, b''.join(LINES[:-1]), b'Input/output error', program.injected(BEFORE, 'read', 'EIO', 2))
    program.on_failing_writes(GIVEN, LINES)
    # the input breaks off inside the grid's last number: no report
    first = b'S,0,0,16,16,2,2,1\nG,0,0,8,8,2,1'
    program.expect('a grid cut off', 1, b'DOTS,1\nS,2\n', b'Input/output error', program.piecewise('EIO', first, b'\n'))
    program.expect('a grid in two reads', 0, b'DOTS,1\nS,2\n0,0,0\n1,0,0\ntotal,0\n', b'', program.piecewise('EINTR', first, b'\n'))
program.print()
