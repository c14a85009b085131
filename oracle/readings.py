#!/usr/bin/env python3
"""Checks every pair (input, output) of a page of readings against a walk program.

    python3 readings.py PAGE [PROGRAM]

A pair is a block of op lines followed at once by a block of output; each pair is given to a fresh
program, and its output is held against the block byte for byte.
"""
import os
import re
import subprocess
import sys

HERE = os.path.dirname(os.path.abspath(__file__))


def pairs(text):
    """(title, input, output) for each pair; one that does not begin with an op line is text."""
    title = ''
    blocks = []
    inside = None
    for line in text.split('\n'):
        if inside is None:
            if line.startswith('### '):
                title = line[4:]
            if line.startswith('```'):
                inside = []
            elif line.strip():
                blocks.append(None)
        elif line.startswith('```'):
            blocks.append((title, ''.join(part + '\n' for part in inside)))
            inside = None
        else:
            inside.append(line)
    found = []
    place = 0
    while place + 1 < len(blocks):
        if blocks[place] and blocks[place + 1]:
            found.append((blocks[place][0], blocks[place][1], blocks[place + 1][1]))
            place += 2
        else:
            place += 1
    return found


def main():
    page = sys.argv[1]
    program = os.path.join(HERE, 'target/release/oracle-walk')
    if len(sys.argv) > 2:
        program = os.path.abspath(sys.argv[2])
    with open(page) as file:
        found = pairs(file.read())
    wrong = 0
    for title, given, wanted in found:
        ran = subprocess.run([program], input=given.encode(), capture_output=True)
        printed = ran.stdout.decode()
        if printed != wanted or ran.returncode != 0:
            wrong += 1
            print('DIFFERS', title, '(ended with %d)' % ran.returncode)
            for number, (one, other) in enumerate(zip(wanted.split('\n'), printed.split('\n'))):
                if one != other:
                    print('  line %d\n    wanted  %s\n    printed %s' % (number + 1, one, other))
                    break
            sys.stdout.write(ran.stderr.decode())
    titles = len(re.findall(r'^### ', open(page).read(), re.M))
    print('%d of %d pairs, under %d headings' % (len(found) - wrong, len(found), titles))
    return 1 if wrong or not found else 0


if __name__ == '__main__':
    sys.exit(main())
