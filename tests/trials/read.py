#!/usr/bin/env python3
# Writes the trials of Trials.antt as questions for the replay programs: read.py FILE FOLDER makes geometry.txt and calls.txt in the folder.
# Each list of trials that the file declares and proves is read, and each of its rows written; whatever is not understood is an error.
#     Source      the file's items: the lists of trials, the constructors' numbers of arguments, the equations
#     Parser      the tokens of an expression as a tree
#     Evaluator   a tree as a number, a bool, a list, a record (a dict) or a constructor with its arguments (a tuple)
#     trial       a row's questions
import os, re, sys

WORD = re.compile(r'[(){};]|[^\s(){};]+')
COMMENT = re.compile(r'(^|\s)--.*')
NUMBER = re.compile(r'[0-9]+')
NAME = re.compile(r'[^\W\d_][\w?-]*|«\w+»|\[\]')
MARKS = ('use', 'abbrev', 'pub', 'unfolding')
RECTANGLE = ('x1', 'y1', 'x2', 'y2')
SETTINGS = ('left', 'top', 'width', 'height', 'depth_limit', 'leaf_limit', 'smallest_cell')


def fail(message):
    sys.exit('trials: ' + message)


class Refused:
    """The answer word of a refused call."""

    def __init__(self, number):
        self.number = number


class Source:
    def __init__(self, text):
        self.tables, self.proved, self.arities, self.equations = [], [], {}, {}
        for item in self.items(text):
            if item[0] in MARKS:
                self.declare(item)
            elif '=' in item:
                at = item.index('=')
                self.equations.setdefault(item[0], []).append((item[1:at], item[at + 1:]))
            else:
                fail(f'an item of no known form: {" ".join(item)}')
        if not self.tables or sorted(self.tables) != sorted(self.proved):
            fail(f'the lists of trials are {self.tables}, and those proved {self.proved}')

    @staticmethod
    def items(text):
        """The tokens of each item; an item begins in the first column."""
        found = []
        for line in text.splitlines():
            line = COMMENT.sub('', line)
            if line.strip() and not line[0].isspace():
                found.append([])
            if line.strip():
                found[-1] += WORD.findall(line)
        return found

    def declare(self, item):
        if item[-3:] == [':', 'List', 'Trial']:
            self.tables.append(item[-4])
        elif item[-5:-3] == [':', 'pass_all']:
            self.proved.append(item[-3])
        elif 'data' in item:
            body = item[item.index('where') + 1:]
            starts = [at - 1 for at, word in enumerate(body) if word == ':']
            for start, end in zip(starts, starts[1:] + [len(body)]):
                self.arities[body[start]] = body[start:end].count('→')

    def equation(self, name):
        """The parameters and the body of a definition of one equation."""
        if len(self.equations.get(name, [])) != 1:
            fail(f'{name} is not defined by one equation')
        return self.equations[name][0]


class Parser:
    def __init__(self, tokens):
        self.tokens, self.at = tokens, 0

    def peek(self):
        return self.tokens[self.at] if self.at < len(self.tokens) else None

    def take(self, wanted=None):
        word = self.peek()
        if word is None or wanted not in (None, word):
            fail(f'{word or "the end"} after {" ".join(self.tokens[max(0, self.at - 8):self.at])}')
        self.at += 1
        return word

    def whole(self):
        tree = self.expression()
        if self.peek() is not None:
            self.take('the end')
        return tree

    def expression(self):
        head = self.application()
        if self.peek() != '∷':
            return head
        self.take()
        return ('cons', head, self.expression())

    def application(self):
        parts = [self.atom()]
        while self.peek() not in (None, '∷', ')', '}', ';'):
            parts.append(self.atom())
        return ('apply', parts[0], parts[1:]) if parts[1:] else parts[0]

    def atom(self):
        word = self.take()
        if word == '(':
            tree = self.expression()
            self.take(')')
            return tree
        if word == 'record':
            return ('record', self.fields())
        if NUMBER.fullmatch(word):
            return ('number', int(word))
        if NAME.fullmatch(word):
            return ('name', word)
        fail(f'{word} is no number and no name')

    def fields(self):
        found = {}
        self.take('{')
        while self.peek() != '}':
            name = self.take()
            self.take('=')
            found[name] = self.expression()
            if self.peek() != '}':
                self.take(';')
        self.take('}')
        return found


class Evaluator:
    # what the file takes from elsewhere: the number of its arguments, and its value
    GIVEN = {
        '[]': (0, lambda: []),
        'true': (0, lambda: True),
        'false': (0, lambda: False),
        'pos': (1, lambda n: n),
        'negsuc': (1, lambda n: -1 - n),
        'refused_word': (1, Refused),
        'none': (0, lambda: 4294967295),
        'all_inks': (0, lambda: 65535),
        'largest_count': (0, lambda: 2 ** 64 - 1),
    }

    def __init__(self, source):
        self.source = source

    def named(self, name):
        return self.value(('name', name), {})

    def value(self, tree, local):
        kind, *rest = tree
        if kind == 'number':
            return rest[0]
        if kind == 'record':
            return {name: self.value(field, local) for name, field in rest[0].items()}
        if kind == 'cons':
            head, tail = (self.value(part, local) for part in rest)
            return [head] + tail if isinstance(tail, list) else fail('a list that does not end in one')
        head, arguments = (tree, []) if kind == 'name' else rest
        if head[0] != 'name':
            fail('something other than a name is applied')
        return self.apply(head[1], [self.value(part, local) for part in arguments], local)

    def apply(self, name, arguments, local):
        def wants(arity):
            if len(arguments) != arity:
                fail(f'{name} with {len(arguments)} arguments, not {arity}')

        if name in local:
            wants(0)
            return local[name]
        if name in self.GIVEN:
            arity, value = self.GIVEN[name]
            wants(arity)
            return value(*arguments)
        if name in self.source.arities:
            wants(self.source.arities[name])
            return (name, *arguments)
        parameters, body = self.source.equation(name)
        wants(len(parameters))
        return self.value(Parser(body).whole(), dict(zip(parameters, arguments)))


def shown(word):
    if word in ('_', '/'):
        return word
    if not isinstance(word, int) or not -2 ** 31 <= word < 2 ** 32:
        fail(f'{word} is no word of a question')
    return str(int(word))


def question(kind, words, answer):
    return ' '.join([kind, *map(shown, words)]) + ' = ' + ' '.join(map(shown, answer))


def fields(record, names):
    if not isinstance(record, dict) or set(record) != set(names):
        fail(f'{record} has not the fields {" ".join(names)}')
    return [record[name] for name in names]


def corners(rectangle):
    return fields(rectangle, RECTANGLE)


def geometry(settings, kind, *rest):
    if kind == 'contained':
        rectangle, inside = rest
        return question('contains', settings[:4] + corners(rectangle), [inside])
    if kind == 'routed':
        rectangle, child = rest
        return question('route', settings + ['/'] + corners(rectangle), [child])
    if kind == 'deepest':
        return question('deepest', settings, rest)
    if kind == 'meet':
        one, other, meets = rest
        return question('intersects', corners(one) + corners(other), [meets])
    fail(f'{kind} is no known trial')


def halves(count):
    """A number of 64 bits as two words, the low one first."""
    if not isinstance(count, int) or not 0 <= count < 2 ** 64:
        fail(f'{count} is no count of changes')
    return [count % 2 ** 32, count // 2 ** 32]


def answered(word):
    return [word.number] if isinstance(word, Refused) else [0, word, 0]


def line(room, kind, *rest):
    if kind == 'insert_ink':
        number, rectangle, ink, word = rest
        return [question('insert', [number, *corners(rectangle), ink], answered(word))]
    if kind == 'remove':
        number, rectangle, word = rest
        return [question(kind, [number, *corners(rectangle)], answered(word))]
    if kind == 'cleanup':
        return [question(kind, [], answered(*rest))]
    if kind == 'all':
        ids, = rest
        return [question(kind, [room], [0, len(ids), 0, *ids])]
    if kind == 'collect_ids':
        ids, opened = rest
        return [question('collect_ids', [room], [0, len(ids), opened, *ids])]
    if kind == 'query_inks':
        rectangle, inks, ids, opened = rest
        return [question('query', [*corners(rectangle), inks, room], [0, len(ids), opened, *ids])]
    if kind == 'references':
        return [question(kind, [], [0, *rest, 0])]
    if kind == 'leaves':
        row, = rest
        return [question(kind, [room], [0, len(row) // 6, 0, *row])]
    if kind == 'words':
        nodes, dots = rest
        return [question('nodes', [], nodes), question('dots', [], dots)]
    if kind == 'free_groups':
        return [question('freegroups', [], *rest)]
    if kind in ('ask', 'place_by', 'changes', 'recounted'):
        return counted(kind, *rest)
    fail(f'{kind} is no known line')


def counted(kind, *rest):
    """The lines of tickets, whose dots have the ink 0, and of the count of changes."""
    if kind == 'ask':
        number, rectangle, word, count = rest
        dot = [number, *corners(rectangle), 0]
        ticket = [] if isinstance(word, Refused) else [each % 2 ** 32 for each in dot] + halves(count)
        return [question('ask', dot, answered(word) + ticket)]
    if kind == 'place_by':
        number, rectangle, count, word = rest
        return [question('place', [number, *corners(rectangle), 0, *halves(count)], answered(word))]
    count, = rest
    if kind == 'changes':
        return [question('changes', [], halves(count))]
    return [' '.join(['recounted', *map(shown, halves(count))])]


def trial(evaluator, row):
    """The file that the row's questions belong to, and the questions."""
    kind, *rest = row
    if kind != 'calls':
        return 'geometry', [geometry(fields(evaluator.named('sample'), SETTINGS), kind, *rest)]
    leaf_limit, groups, lines = rest
    settings = fields(evaluator.apply('settings', [leaf_limit], {}), SETTINGS)
    room = evaluator.named('room')
    tree = ' '.join(['tree', *map(shown, [*settings, groups, evaluator.named('places')])])
    return 'calls', [tree] + [asked for each in lines for asked in line(room, *each)]


def rows_of(evaluator, table):
    """The rows of a list of trials, as many as its text parts by '∷' outside all brackets."""
    rows = evaluator.named(table)
    depth = parted = 0
    for word in evaluator.source.equation(table)[1]:
        depth += (word in '({') - (word in ')}')
        parted += word == '∷' and depth == 0
    if len(rows) != parted or not rows:
        fail(f'{len(rows)} rows of {table} were read, and its text has {parted}')
    return rows


def main():
    if len(sys.argv) != 3:
        fail('read.py FILE FOLDER')
    with open(sys.argv[1], encoding='utf-8') as file:
        evaluator = Evaluator(Source(file.read()))
    files = {'geometry': [], 'calls': []}
    counts = []
    for table in evaluator.source.tables:
        rows = rows_of(evaluator, table)
        for number, row in enumerate(rows, 1):
            name, questions = trial(evaluator, row)
            files[name] += [f'# row {number} of {table}', *questions]
        counts.append(f'{len(rows)} of {table}')
    for name, lines in files.items():
        with open(os.path.join(sys.argv[2], name + '.txt'), 'w', encoding='utf-8') as file:
            file.write(''.join(each + '\n' for each in lines))
    print(', '.join(counts))


main()
