#!/usr/bin/env python3
# Writes the recorded inputs and the outputs that docs/SPECIFICATION.md §19 asks for, each pair a file NAME.in and NAME.out.
import sys
from recorded import Folder
put = Folder(sys.argv[1]).put
S = b'S,0,0,16,16,2,2,1\n'
# three squares, a point where four windows meet, a line on the edge of two, a point at 0,0 and a square that reaches over the film's far corner
FILM = S + b'I,1,1,1,2,2\nI,2,9,1,10,2\nI,3,7,7,9,9\nI,4,8,8,8,8,15\nI,5,4,4,4,12,1\nI,6,0,0,0,0\nI,7,14,14,17,17\n'
MADE = b'S,2\nI,1,0\nI,2,0\nI,3,1\nI,4,0\nI,5,0\nI,6,1\nI,7,0\n'
GRID = b'G,0,0,8,8,2,2'
REPORT = b'0,0,5\n1,0,3\n0,1,3\n1,1,3\ntotal,14\n'

def report(columns, counts):
    """The lines of these counts, a row after the other."""
    lines = [b'%d,%d,%d\n' % (i % columns, i // columns, count) for i, count in enumerate(counts)]
    return b''.join(lines) + b'total,%d\n' % sum(counts)

def film(name, grid, columns, counts):
    put(name, FILM + grid + b'\n', MADE + report(columns, counts))

put('windows', FILM + GRID + b'\n', MADE + REPORT)
put('no_final_lf', FILM + GRID, MADE + REPORT)
put('lines_after', FILM + GRID + b'\nC\nX\nQ,0,0,8,8\n' + b'C\n' * 5000, MADE + REPORT)
put('two_grids', FILM + GRID + b'\nG,0,0,4,4,4,4\n', MADE + REPORT)
put('calls_before', FILM + b'D,3,7,7,9,9\nC\nQ,0,0,8,8\nX\n' + GRID + b'\n', MADE + b'D,3,1\nC,0\nQ,8,4,5,6,1,4\nE,9\n' + report(2, [4, 2, 2, 2]))
put('empty_film', S + GRID + b'\n', b'S,2\n' + report(2, [0, 0, 0, 0]))
# the six points at 0,0 are removed again: their places hold the words of a point there
put('freed_points', S + b''.join(b'I,%d,0,0,0,0\n' % k for k in range(6)) + b''.join(b'D,%d,0,0,0,0\n' % k for k in range(1, 6)) + b'G,-1,-1,1,1,2,2\n',
    b'S,2\nI,0,0\nI,1,0\nI,2,2\nI,3,0\nI,4,0\nI,5,0\n' + b''.join(b'D,%d,1\n' % k for k in range(1, 6)) + report(2, [1, 1, 1, 1]))

# ---- without a grid that is read
put('no_grid', FILM + b'C\n', MADE + b'C,0\n')
put('no_line', b'', b'E,9\n')
put('grid_first', GRID + b'\n' + S + b'C\n', b'E,9\n')
put('grid_first_bad', b'G\n' + S + GRID + b'\n', b'E,9\n')
put('bad_settings', b'S,0,0,16,16,256,2,1\n' + GRID + b'\n', b'E,2\n')
UNREADABLE = [
    b'G', b'G,', b'G,0,0,8,8,2', b'G,0,0,8,8,2,', b'G,0,0,8,8,2,2,', b'G,0,0,8,8,2,2,2', b'G,0,0,8,8,,2', b'G,0,0,8,8,02,2', b'G,-0,0,8,8,2,2',
    b'G,+1,0,8,8,2,2', b'G, 0,0,8,8,2,2', b'G,0,0,8,8,2,2 ', b'G,0,0,8,8,2,2\r', b'G,0,0,8,8,2,2\0', b'G0,0,8,8,2,2', b'GG,0,0,8,8,2,2', b'g,0,0,8,8,2,2',
    b'G;0,0,8,8,2,2', b'G,x,0,8,8,2,2', b'G,0x1,0,8,8,2,2', b'G,1.0,0,8,8,2,2', b'G,2147483648,0,8,8,2,2', b'G,-2147483649,0,8,8,2,2',
    b'G,0,0,8,8,2,4294967296', b'G,0,0,8,8,2,2147483648', b'G,0,0,99999999999999999999,8,2,2', b' G,0,0,8,8,2,2', b'G,0,0,8,8,-,2',
]
put('unreadable', FILM + b'\n'.join(UNREADABLE) + b'\n', MADE + b'E,9\n' * len(UNREADABLE))
put('unreadable_then_grid', FILM + b'\n'.join(UNREADABLE + [GRID]) + b'\n', MADE + b'E,9\n' * len(UNREADABLE) + REPORT)
for size in (80, 81, 82, 5000):
    put('bytes_%d' % size, FILM + GRID + b'0' * (size - len(GRID)) + b'\n' + GRID + b'\n', MADE + b'E,9\n' + REPORT)

# ---- refused, and nothing more
def refused(name, refusal, *numbers):
    put(name, FILM + b'G' + b''.join(b',%d' % n for n in numbers) + b'\nC\n' + GRID + b'\n', MADE + b'E,%d\n' % refusal)

LOW, HIGH, FAR = -2147483648, 2147483647, 1073741823
refused('width_0', 11, 0, 0, 0, 8, 2, 2)
refused('width_below_0', 11, 0, 0, -8, 8, 2, 2)
refused('height_0', 11, 0, 0, 8, 0, 2, 2)
refused('height_lowest', 11, 0, 0, 8, LOW, 2, 2)
refused('columns_0', 11, 0, 0, 8, 8, 0, 2)
refused('columns_below_0', 11, 0, 0, 8, 8, -2, 2)
refused('columns_65', 11, 0, 0, 8, 8, 65, 2)
refused('rows_0', 11, 0, 0, 8, 8, 2, 0)
refused('rows_65', 11, 0, 0, 8, 8, 2, 65)
refused('rows_highest', 11, 0, 0, 8, 8, 2, HIGH)
refused('sizes_and_corner', 11, HIGH, HIGH, HIGH, HIGH, HIGH, HIGH)
refused('zeros', 11, 0, 0, 0, 0, 0, 0)
refused('corner_x', 12, FAR, 0, 1, 1, 1, 1)
refused('corner_y', 12, 0, FAR, 1, 1, 1, 1)
refused('corner_highest', 12, HIGH, HIGH, 1, 1, 1, 1)
refused('corner_columns', 12, 0, 0, 16777216, 1, 64, 1)
refused('corner_rows', 12, 0, 0, 1, 16777216, 1, 64)
refused('corner_wide', 12, LOW, LOW, 1610612736, 1, 2, 1)
refused('corner_high', 12, LOW, LOW, 1, 50331648, 1, 64)
refused('corner_all', 12, HIGH, LOW, HIGH, HIGH, 64, 64)
# in 32 bits the far corner would be 0, and -64
refused('corner_round', 12, 0, 0, 1073741824, 1, 4, 1)
refused('corner_round_below', 12, 0, 0, 1, HIGH, 1, 64)

# ---- where the windows lie
film('columns', b'G,0,0,4,16,4,1', 4, [3, 3, 3, 1])
film('rows', b'G,0,0,16,4,1,4', 1, [4, 3, 3, 2])
film('one_window', b'G,0,0,17,17,1,1', 1, [7])
film('touched', b'G,2,2,2,2,1,1', 1, [1])
film('off_the_film', b'G,100,100,8,8,2,2', 2, [0] * 4)
film('off_the_film_below', b'G,-100,-100,8,8,2,2', 2, [0] * 4)
film('a_dot_reaches_out', b'G,16,16,1,1,2,2', 2, [1, 0, 0, 0])
film('a_point_touches', b'G,-16,-16,8,8,2,2', 2, [0, 0, 0, 1])
film('beyond_the_root', b'G,-1000,-1000,1000,1000,2,2', 2, [1, 1, 1, 7])
film('beyond_the_root_once', b'G,-1000,-1000,3000,3000,1,1', 1, [7])
film('lowest_corner', b'G,-2147483648,-2147483648,1,1,64,64', 64, [0] * 4096)
film('lowest_corner_once', b'G,-2147483648,-2147483648,2147483647,2147483647,1,1', 1, [0])
film('lowest_corner_wide', b'G,-2147483648,-2147483648,1610612735,1610612735,2,2', 2, [0, 0, 0, 7])
film('both_ends', b'G,-2147483647,-2147483647,1610612735,1610612735,2,2', 2, [0, 0, 0, 7])
film('highest_corner', b'G,1073741822,1073741822,1,1,1,1', 1, [0])
film('highest_columns', b'G,1073741759,0,1,1,64,1', 64, [0] * 64)
film('highest_rows', b'G,0,1073741759,1,1,1,64', 1, [0] * 64)
film('widest', b'G,0,0,1073741823,1073741823,1,1', 1, [7])

# a point on a corner of four windows, a line along the edge of two rows, one along the edge of two columns, a square up to the edges
put('edges', S + b'I,1,4,4,4,4\nI,2,0,8,16,8\nG,0,0,4,4,4,4\n', b'S,2\nI,1,0\nI,2,0\n' + report(4, [1, 1, 0, 0, 2, 2, 1, 1, 1, 1, 1, 1, 0, 0, 0, 0]))
put('upright_line', S + b'I,1,8,1,8,3\nG,0,0,8,4,2,2\n', b'S,2\nI,1,0\n' + report(2, [1, 1, 0, 0]))
put('square', S + b'I,1,4,4,8,8\nG,0,0,4,4,3,3\n', b'S,2\nI,1,0\n' + report(3, [0, 0, 0, 0, 1, 0, 0, 0, 0]))
put('film_corners', S + b'I,1,0,0,0,0\nI,2,16,16,16,16\nG,0,0,8,8,2,2\n', b'S,2\nI,1,0\nI,2,0\n' + report(2, [1, 0, 0, 1]))
put('flat_film', b'S,8,8,0,0,2,2,1\nI,1,8,8,8,8\nG,0,0,8,8,2,2\n', b'S,0\nI,1,0\n' + report(2, [1, 1, 1, 1]))
# all dots in all windows: the largest counts and the longest output
put('largest', b'S,0,0,64,64,0,4294967295,1\n' + b'I,9,0,0,64,64\n' * 1024 + b'G,0,0,1,1,64,64\n', b'S,0\n' + b'I,9,0\n' * 1024 + report(64, [1024] * 4096))
