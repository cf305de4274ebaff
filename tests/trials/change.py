#!/usr/bin/env python3
# Shows that a replay can fail: change.py PROGRAM FILE. Each word of each answer is changed in turn, and the program must report that line.
import subprocess, sys


def reported(program, lines, number):
    name = sys.argv[2] + '.changed'
    with open(name, 'w', encoding='utf-8') as file:
        file.write('\n'.join(lines) + '\n')
    ended = subprocess.run([program, name], stdout=subprocess.PIPE, text=True)
    return ended.returncode == 1 and f'DIFFERENCE at line {number}:' in ended.stdout


def main():
    with open(sys.argv[2], encoding='utf-8') as file:
        lines = file.read().splitlines()
    changed = 0
    for at, line in enumerate(lines):
        asked, _, answer = line.partition(' = ')
        words = answer.split()
        for place in (place for place, word in enumerate(words) if word != '_'):
            other = words[:place] + [str(int(words[place]) + 1)] + words[place + 1:]
            copy = lines[:at] + [asked + ' = ' + ' '.join(other)] + lines[at + 1:]
            if not reported(sys.argv[1], copy, at + 1):
                sys.exit(f'trials: a wrong answer was not reported: {copy[at]}')
            changed += 1
    if changed == 0:
        sys.exit('trials: no answer to change')
    print(changed)


main()
