# A second reader of a ticket's lines, written from the requirements (docs/SPECIFICATION.md §13) alone: which lines are readable. And random lines,
# damaged ones among them.
import re
NUMBER = re.compile(rb'(0|-?[1-9][0-9]*)\Z')
# the numbers of each line; an I line may end in an ink
FIELDS = {b'S': ['iiiiuuu'], b'I': ['uiiii', 'uiiiiu'], b'D': ['uiiii'], b'C': [''], b'Q': ['iiii']}
def readable(line, fields=FIELDS):
    if len(line) > 80: return False
    letter, *numbers = line.split(b',')
    kinds = next((kinds for kinds in fields.get(letter, []) if len(kinds) == len(numbers)), None)
    if kinds is None: return False
    for kind, text in zip(kinds, numbers):
        if not NUMBER.match(text): return False
        n = int(text)
        if not (0 <= n < 2 ** 32 if kind == 'u' else -2 ** 31 <= n < 2 ** 31): return False
    return True
def bad_ink(line):
    """Of a readable line."""
    letter, *numbers = line.split(b',')
    if letter != b'I' or len(numbers) != 6: return False
    x1, y1, x2, y2, ink = map(int, numbers[1:])
    return ink > 15 and x1 <= x2 and y1 <= y2 and all(-2 ** 30 <= z < 2 ** 30 for z in (x1, y1, x2, y2))
def number(r):
    edge = [0, 1, -1, 9, 10, 2 ** 31 - 1, 2 ** 31, -2 ** 31, -2 ** 31 - 1, 2 ** 32 - 1, 2 ** 32, 10 ** 10, 10 ** 25]
    n = str(r.choice(edge + [r.randrange(0, 40) for _ in range(40)])).encode()
    return r.choice([n] * 30 + [b'+' + n, b'0' + n, b'-' + n, b' ' + n, n + b' ', b'', n + b'\r', b'-0', b'-', n + b'.0', b'0x1', n + b'\0'])
def inked(r):
    x, y = r.randrange(1100), r.randrange(1100)
    return b'I,%d,%d,%d,%d,%d,%d' % (r.randrange(40), x, y, x + r.choice([0, 1, 9, -1]), y + 2, r.choice([0, 1, 14, 15, 16, 17, 2 ** 32 - 1, 2 ** 32]))
def any_line(r):
    letter = r.choice([b'I', b'D', b'Q', b'C', b'S', b'i', b'', b'II', b'X'] + [b'I', b'D', b'Q', b'C'] * 6)
    count = len(r.choice(FIELDS.get(letter, ['uiiii']))) + r.choice([0] * 20 + [1, -1, 3])
    return b','.join([letter] + [number(r) for _ in range(max(count, 0))])
def damaged(r, text):
    """Now and then."""
    if r.random() < 0.05: text += r.choice([b',', b'\r', b' ', b',' * 90, b'0' * 90])
    if r.random() < 0.03 and text:
        at = r.randrange(len(text)); text = text[:at] + bytes([r.choice([0, 9, 11, 13, 32, 43, 44, 45, 47, 58, 128, 255])]) + text[at + 1:]
    return text
def line(r):
    return damaged(r, inked(r) if r.random() < 0.1 else any_line(r))
