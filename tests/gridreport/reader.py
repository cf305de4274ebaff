#!/usr/bin/env python3
# gridreport on random tickets, against a plain program: the second reader's lines (tests/lines), a list of the live dots, and every window tried with
# every dot. dotcheck on the same ticket answers the lines before the grid alike, E,9 to each line that begins with G, and goes on.
#     reader.py GRIDREPORT DOTCHECK ROUNDS
import random, subprocess, sys
from second_reader import FIELDS, any_line, damaged, readable
WITH_GRID = {**FIELDS, b'G': ['iiiiii']}
FAR = 2 ** 30 - 1

def numbers(line):
    return [int(n) for n in line.split(b',')[1:]]

class Film:
    """The live dots, each id once, and what the calls make of them."""

    def __init__(self, left, top, width, height):
        self.root, self.dots = (left, top, left + width, top + height), {}

    def takes(self, rect, ink):
        x1, y1, x2, y2 = rect
        left, top, right, bottom = self.root
        ordered = x1 <= x2 and y1 <= y2 and all(-2 ** 30 <= n <= FAR for n in rect)
        return ordered and ink <= 15 and left <= (x1 + x2) // 2 <= right and top <= (y1 + y2) // 2 <= bottom

    def hears(self, line, answer):
        """Of a readable line; the answer must fit."""
        letter, given = line[:1], numbers(line)
        if letter == b'I':
            taken = self.takes(tuple(given[1:5]), (given + [0])[5])
            assert answer.startswith(b'I,%d,' % given[0] if taken else b'E,'), (line, answer)
            if taken: self.dots[given[0]] = tuple(given[1:5])
        elif letter == b'D':
            gone = self.dots.get(given[0]) == tuple(given[1:])
            assert answer == b'D,%d,%d' % (given[0], gone), (line, answer)
            if gone: del self.dots[given[0]]

def meets(dot, window):
    x1, y1, x2, y2 = dot
    left, top, right, bottom = window
    if x1 == x2 or y1 == y2:
        return x1 <= right and left <= x2 and y1 <= bottom and top <= y2
    return x1 < right and left < x2 and y1 < bottom and top < y2

def report(film, x, y, width, height, columns, rows):
    if width < 1 or height < 1 or not 1 <= columns <= 64 or not 1 <= rows <= 64: return [b'E,11']
    if x + columns * width > FAR or y + rows * height > FAR: return [b'E,12']
    lines, total = [], 0
    for row in range(rows):
        for column in range(columns):
            left, top = x + column * width, y + row * height
            count = sum(meets(dot, (left, top, left + width, top + height)) for dot in film.dots.values())
            total += count
            lines.append(b'%d,%d,%d' % (column, row, count))
    return lines + [b'total,%d' % total]

# ---- random tickets

def rectangle(r, side):
    x, y = r.randint(-2, side + 2), r.randint(-2, side + 2)
    w, h = r.choice([(0, 0), (0, r.randint(0, side)), (r.randint(0, side), 0), (r.randint(1, 6), r.randint(1, 6)), (r.randint(0, side), r.randint(0, side))])
    return (x, y, x + w, y + h)

def axis(r, number, side, dot):
    """Where the windows begin and their size: over the film, at the ends of the range, from a dot on, anywhere."""
    if r.random() < 0.5: return r.choice([0, 0, -1, 1]), max(1, side // max(number, 1))
    if r.random() < 0.1: return r.choice([-2 ** 31, -2 ** 31 + 1, FAR - 64, FAR - 1, FAR, 2 ** 31 - 1]), r.choice([1, 2, 50331647, 50331648, 2 ** 31 - 1])
    size = r.choice([r.randint(1, 4), r.randint(1, side), side + r.randint(1, 9)])
    return r.choice([0, dot, dot - size, dot - size * (number // 2), r.randint(-side, side)]), size

def grid(r, side, dot):
    columns, rows = (r.choice([1, 2, 3, 4, 5, 8, r.randint(1, 64), r.choice([0, -1, 64, 65])]) for _ in range(2))
    (x, width), (y, height) = axis(r, columns, side, dot[0]), axis(r, rows, side, dot[1])
    if r.random() < 0.04: width = r.choice([0, -1, -2 ** 31])
    return b'G,%d,%d,%d,%d,%d,%d' % (x, y, width, height, columns, rows)

def other(text):
    """A line of any kind, but none that can be read as an I, a D or a grid."""
    return text if text[:1] not in (b'I', b'D', b'G') or not readable(text, WITH_GRID) else b'G,0,0,8,8,2,'

def ticket(r):
    """Its lines after the first. Each dot has an id of its own, and is removed by its own rectangle."""
    side, lines, given = r.choice([1, 4, 16, 60, 1000]), [], {}
    for number in range(r.randint(0, 150)):
        chance = r.random()
        if chance < 0.6:
            given[number] = rectangle(r, side)
            ink = r.choice([b'', b'', b',0', b',7', b',15', b',16'])
            lines.append(b'I,%d,%d,%d,%d,%d' % (number, *given[number]) + ink)
        elif chance < 0.75 and given:
            chosen = r.choice(sorted(given))
            lines.append(b'D,%d,%d,%d,%d,%d' % (chosen, *given[chosen]))
        elif chance < 0.85:
            lines.append(b'Q,%d,%d,%d,%d' % rectangle(r, side))
        else:
            text = any_line(r) if r.random() < 0.5 else b'G' + any_line(r)[1:]
            lines.append(other(damaged(r, text)))
    dot = r.choice(sorted(given.values()) or [(0, 0)])
    if r.random() < 0.9: lines.append(grid(r, side, dot))
    lines += [r.choice([b'C', b'Q,0,0,9,9', b'X', grid(r, side, dot)]) for _ in range(r.choice([0, 0, 1, 3]))]
    return side, lines

def wanted(side, lines, answers):
    """The output's lines after the first two, by dotcheck's answers and the plain counting; and whether a report ends it."""
    film, told = Film(0, 0, side, side), []
    for line, answer in zip(lines, answers):
        if line.startswith(b'G'):
            assert answer == b'E,9', (line, answer)
            if readable(line, WITH_GRID): return told + report(film, *numbers(line)), True
        elif readable(line) and not line.startswith(b'S'):
            film.hears(line, answer)
        else:
            assert answer == b'E,9', (line, answer)
        told.append(answer)
    return told, False

def output(program, given):
    return subprocess.run([program], input=given, stdout=subprocess.PIPE, check=True).stdout.split(b'\n')

def main():
    gridreport, dotcheck, rounds = sys.argv[1], sys.argv[2], int(sys.argv[3])
    counted = refused = windows = total = without = 0
    for seed in range(rounds):
        r = random.Random(seed)
        side, lines = ticket(r)
        given = b'S,0,0,%d,%d,%d,%d,1\n' % (side, side, r.choice([0, 3, 8]), r.choice([1, 2, 8])) + b''.join(line + b'\n' for line in lines)
        if lines and lines[-1] and r.random() < 0.3: given = given[:-1]
        answers = output(dotcheck, given)
        assert len(answers) == len(lines) + 3 and answers[-1] == b'', (seed, len(answers))
        told, ended = wanted(side, lines, answers[2:-1])
        got = output(gridreport, given)
        assert got == answers[:2] + told + [b''], (seed, given, got)
        accepted = ended and told[-1].startswith(b'total,')
        counted += accepted
        refused += ended and not accepted
        without += not ended
        if accepted:
            windows += sum(line[:1].isdigit() for line in told)
            total += int(told[-1][6:])
    assert counted > rounds // 2 and refused > rounds // 20 and without > rounds // 20 and total > 15 * rounds, (counted, refused, without, total)
    print(f'gridreport: {rounds} random tickets as the plain program answers them: {counted} reports of {windows} windows with {total} dots, '
          f'{refused} refused, {without} without a grid')
main()
