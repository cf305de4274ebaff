#!/usr/bin/env python3
# Writes the recorded inputs and the outputs that docs/SPECIFICATION.md §13 asks for, each pair a file NAME.in and NAME.out.
import sys
from recorded import Folder
put = Folder(sys.argv[1]).put
S = b'S,0,0,16,16,2,2,1\n'
put('empty', b'', b'E,9\n')
put('lone_lf', b'\n', b'E,9\n')
put('two_lf', b'\n' + S, b'E,9\n')
put('no_final_lf', S + b'C', b'S,2\nC,0\n')
put('settings_no_lf', S[:-1], b'S,2\n')
put('final_lf', S + b'C\n', b'S,2\nC,0\n')
put('empty_line', S + b'\nC\n', b'S,2\nE,9\nC,0\n')
put('first_not_s', b'C\n' + S, b'E,9\n')
put('bad_settings', b'S,0,0,16,16,256,2,1\nC\n', b'E,2\n')
put('leaf_limit_0', b'S,0,0,16,16,2,0,1\n', b'E,2\n')
put('settings_beyond', b'S,0,0,16,16,2,2,4294967296\n', b'E,9\n')
put('settings_far', b'S,2147483648,0,16,16,2,2,1\n', b'E,9\n')
put('settings_wide', b'S,0,0,2147483647,16,2,2,1\n', b'E,2\n')
put('later_s', S + S + b'C\n', b'S,2\nE,9\nC,0\n')
put('grid_line', S + b'G,0,0,8,8,2,2\nC\n', b'S,2\nE,9\nC,0\n')
put('refusals', S + b'I,1,2,1,1,2\nI,1,1073741824,1,1073741825,2\nI,1,-1,-1,0,0\nI,1,2147483648,0,0,0\n', b'S,2\nE,4\nE,4\nE,5\nE,9\n')
put('numbers', S + b''.join(b'D,%s,0,0,0,0\n' % n for n in (b'4294967295', b'4294967296', b'01', b'-0', b'+1', b' 1', b'1 ', b'', b'-1', b'0', b'99999999999999999999')),
    b'S,2\nD,4294967295,0\n' + b'E,9\n' * 8 + b'D,0,0\nE,9\n')
put('integers', S + b''.join(b'D,7,%s,0,0,0\n' % n for n in (b'-2147483648', b'-2147483649', b'2147483647', b'2147483648', b'-01', b'--1', b'-', b'00', b'-1')),
    b'S,2\nD,7,0\nE,9\nD,7,0\n' + b'E,9\n' * 5 + b'D,7,0\n')
put('damaged', S + b'C\r\nC,\nc\nCC\nC,0\nQ,0,0,8\nQ,0,0,8,8,8\nQ,0,0,8,8,\n,\nI,1,0,0,0,0\0\n\0\nX\n', b'S,2\n' + b'E,9\n' * 12)
put('long_lines', S + b'C' * 80 + b'\n' + b'C' * 81 + b'\n' + b'C' * 100000 + b'\nC\n' + b'C' * 4096, b'S,2\nE,9\nE,9\nE,9\nC,0\nE,9\n')
longest = b'D,4294967295,-2147483648,-2147483648,-2147483648,-2147483648'
put('longest', S + longest + b'\n' + longest + b',' + b'0' * (79 - len(longest)) + b'\n', b'S,2\nD,4294967295,0\nE,9\n')
put('full', b'S,0,0,16,16,0,4294967295,1\n' + b'I,9,1,1,1,1\n' * 1025 + b'Q,0,0,16,16\n', b'S,0\n' + b'I,9,0\n' * 1024 + b'E,6\n' + b'Q,1,1024' + b',9' * 1024 + b'\n')
put('groups', b'S,0,0,1073741823,1073741823,255,1,1\n' + b''.join(b'I,%d,%d,%d,%d,%d\n' % (k, x, x, x, x) for k, x in ((1, 0), (2, 0))), b'S,29\nI,1,0\nI,2,29\n')
# inks: an I line may end in one, from 0 to 15; the windows list all of them, and a dot is removed whatever its ink
put('inks', S + b'I,1,1,1,2,2\nI,2,9,1,10,2,0\nI,3,7,7,9,9,7\nI,4,9,9,10,10,15\nQ,0,0,16,16\nD,3,7,7,9,9\nI,5,7,7,9,9,15\nQ,0,0,16,16\nC\n',
    b'S,2\nI,1,0\nI,2,0\nI,3,1\nI,4,0\nQ,6,4,3,1,2,4\nD,3,1\nI,5,0\nQ,6,4,5,1,2,4\nC,0\n')
put('bad_inks', S + b''.join(b'I,1,1,1,2,2,%s\n' % n for n in (b'15', b'16', b'17', b'32', b'4294967295', b'4294967296', b'99999999999999999999')) + b'Q,0,0,16,16\n',
    b'S,2\nI,1,0\n' + b'E,10\n' * 4 + b'E,9\n' * 2 + b'Q,1,1,1\n')
# refusal 10 comes after 4 and before 5
put('bad_ink_order', S + b'I,1,2,2,1,1,16\nI,1,1073741824,1,1073741824,1,16\nI,1,16,16,18,18,16\nI,1,16,16,18,18,15\n', b'S,2\nE,4\nE,4\nE,10\nE,5\n')
put('unreadable_inks', S + b''.join(b'I,1,1,1,2,2%s\n' % n for n in (b',', b',3,', b',3,4', b',,', b',-1', b',-0', b',01', b',00', b',+1', b', 1', b',1 ', b',1\r', b',x', b';1')) + b'I,1,1,1,2,2,3',
    b'S,2\n' + b'E,9\n' * 14 + b'I,1,0\n')
# no other line has an ink
put('inks_elsewhere', S + b'I,1,1,1,2,2,3\nD,1,1,1,2,2,3\nQ,0,0,16,16,3\nC,3\nD,1,1,1,2,2\n', b'S,2\nI,1,0\n' + b'E,9\n' * 3 + b'D,1,1\n')
longest = b'I,4294967295,-2147483648,-2147483648,-2147483648,-2147483648,4294967295'
put('longest_ink', S + longest + b'\n' + longest + b'0\n', b'S,2\nE,4\nE,9\n')
# a film that is full of inks: 6 comes after 10
put('full_inks', b'S,0,0,16,16,0,4294967295,1\n' + b''.join(b'I,9,1,1,1,1,%d\n' % (k % 16) for k in range(1024)) + b'I,9,1,1,1,1,16\nI,9,1,1,1,1,15\nQ,0,0,16,16\n',
    b'S,0\n' + b'I,9,0\n' * 1024 + b'E,10\nE,6\n' + b'Q,1,1024' + b',9' * 1024 + b'\n')
# the longest lines that are calls in all but their length: an S of 80 bytes is read (and its settings are bad), one of 81 is not
corner = b'S' + b',-2147483648' * 4 + b',4294967295'
for size, tail, answers in ((80, b',999999999,999999999', b'E,2\n'), (81, b',4294967295,999999999', b'E,9\n'), (82, b',4294967295,4294967295', b'E,9\n')):
    assert len(corner + tail) == size
    put('bytes_%d' % size, corner + tail + b'\n', answers)

# G = 512: with leaf limit 1, a dot in the opposite quarter of a leaf that has one splits that leaf once. 512 groups are taken, one a dot; a dot that
# needs the 513th is refused, and one that needs none goes on.
side = 1 << 20
leaves = [(side // 2, side // 2, side // 2, 1, 1)]      # centre, half size, and the dot of each leaf that has one, the oldest first
points = [(1, 1)]
def opposite(at, centre, half):
    return centre + half // 2 if at <= centre else centre - half // 2
while len(points) < 514:
    x, y, half, px, py = leaves.pop(0)
    nx, ny = opposite(px, x, half), opposite(py, y, half)
    points.append((nx, ny))
    for dx, dy in ((px, py), (nx, ny)):
        leaves.append((x - half // 2 if dx <= x else x + half // 2, y - half // 2 if dy <= y else y + half // 2, half // 2, dx, dy))
lines = b''.join(b'I,%d,%d,%d,%d,%d\n' % (k, x, y, x, y) for k, (x, y) in enumerate(points))
free = b'I,999,%d,%d,%d,%d\n' % (side // 2 + 1, 1, side // 2 + 1, 1)
put('all_groups', b'S,0,0,%d,%d,255,1,1\n' % (side, side) + lines + free,
    b'S,20\nI,0,0\n' + b''.join(b'I,%d,1\n' % k for k in range(1, 513)) + b'E,7\nI,999,0\n')
