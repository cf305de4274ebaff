#!/usr/bin/env python3
# dotcheck on tickets of random and damaged lines, against the second reader (tests/lines): E,9 exactly for the unreadable ones, and E,10 exactly for an
# ink above 15 with a rectangle that is not refused 4.
import random, subprocess, sys
from second_reader import bad_ink, line, readable
# Refusal 7: pairs of equal dots split to the last level until the 512 groups are used up.
def out_of_groups(program):
    dots = [b'I,%d,%d,%d,%d,%d\n' % ((k, x, y, x, y)) for k, (x, y) in enumerate((x * 2 ** 25, y * 2 ** 25) for x in range(8) for y in range(8) for _ in range(2))]
    answers = subprocess.run([program], input=b'S,0,0,1073741823,1073741823,255,1,1\n' + b''.join(dots), stdout=subprocess.PIPE, check=True).stdout.split(b'\n')[2:-1]
    splits = [int(a.split(b',')[2]) for a in answers if a.startswith(b'I,')]
    assert b'E,7' in answers and 512 - 29 < sum(splits) <= 512 and max(splits) == 29, (sum(splits), answers)
    assert all(a == b'E,7' or a.startswith(b'I,') for a in answers)
def main():
    program, rounds = sys.argv[1], int(sys.argv[2])
    out_of_groups(program)
    checked = bad = 0
    for seed in range(rounds):
        r = random.Random(seed)
        lines = [line(r) for _ in range(400)]
        ticket = b'S,0,0,1000,1000,6,4,1\n' + b'\n'.join(lines) + r.choice([b'', b'\n'])
        if not lines[-1]: ticket += b'\n'
        answers = subprocess.run([program], input=ticket, stdout=subprocess.PIPE, check=True).stdout.split(b'\n')
        assert answers[:2] == [b'DOTS,1', b'S,6'] and answers[-1] == b'' and len(answers) == 403, (seed, len(answers))
        for text, answer in zip(lines, answers[2:]):
            unreadable = not readable(text) or text.startswith(b'S,')
            assert (answer == b'E,9') == unreadable, (seed, text, answer)
            refused = not unreadable and bad_ink(text)
            assert (answer == b'E,10') == refused, (seed, text, answer)
            checked += 1
            bad += refused
    assert bad > 5 * rounds, bad
    print(f'dotcheck: {checked} random lines read as the second reader reads them, {bad} of them with an ink above 15')
main()
