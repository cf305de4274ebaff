#!/usr/bin/env python3
# dotcheck where a read or a write fails: an interrupted call is made again; after any other error nothing more is read or answered, no piece of a line
# is taken for a line, and the status is 1. After a first line that is no S it reads no further.
#     errors.py PROGRAM [STRACE]     without strace, no errors are injected into single calls
import sys
from failing import Program
S = b'S,0,0,16,16,2,2,1\n'
GIVEN = S + b'I,1,1,1,2,2\n' + b'Q,0,0,16,16\n' + b'C\n'
LINES = [b'DOTS,1\n', b'S,2\n', b'I,1,0\n', b'Q,1,1,1\n', b'C,0\n']
program = Program(*sys.argv[1:])
program.on_failing_files(GIVEN, LINES[0])
program.on_broken_pipe()
program.ends_after('a bad first line', b'C\n', b'DOTS,1\nE,9\n')
if program.strace:
    for when in (1, 2):
        program.expect('an interrupted read %d' % when, 0, b''.join(LINES), b'', program.injected(GIVEN, 'read', 'EINTR', when))
        output = b''.join(LINES) if when == 2 else LINES[0]
        program.expect('a failed read %d' % when, 1, output, b'Input/output error', program.injected(GIVEN, 'read', 'EIO', when))
    program.on_failing_writes(GIVEN, LINES)
    # the input breaks off inside the last number: with a line that is cut off nothing is done
    program.expect('a line cut off', 1, b'DOTS,1\nS,2\n', b'Input/output error', program.piecewise('EIO', S + b'Q,0,0,16,1', b'6\n'))
    program.expect('a line in two reads', 0, b'DOTS,1\nS,2\nQ,1,0\n', b'', program.piecewise('EINTR', S + b'Q,0,0,16,1', b'6\n'))
program.print()
