#!/usr/bin/env python3
"""Skips each single step of a call with a wrong PIN, and counts what comes of it.

attack.py SKIPGUARD NAME OBJECT"""
import re
import subprocess
import sys

OPEN, SHUT = 0x6F70656E, 0x90857A91
WRONG = 0x04030201


def call(skipguard, path, steps, skip=None):
    """The text and the status of one call of the lock."""
    words = [skipguard, 'run', '--base', '0x8000', '--room', '4096', '--entry', 'try_pin',
             '--arg', str(WRONG), '--steps', str(steps)]
    if skip is not None:
        words += ['--skip', str(skip)]
    done = subprocess.run(words + [path], capture_output=True, text=True)
    return done.stdout, done.returncode


def result(text):
    """How many steps a call took and what it returned, or nothing where it did not return."""
    m = re.match(r'returned after (\d+) steps, r0 (0x[0-9a-f]+),', text)
    return (int(m[1]), int(m[2], 16)) if m else None


def main():
    skipguard, name, path = sys.argv[1:]
    text, status = call(skipguard, path, 10_000)
    if status != 0 or result(text)[1] != SHUT:
        sys.exit(f'{path}: {text.strip()}')
    steps = result(text)[0]
    opened = crashed = harmless = 0
    for k in range(steps):
        answer = result(call(skipguard, path, 10_000, k)[0])
        if answer and answer[1] == OPEN:
            opened += 1
        elif answer and answer[1] == SHUT:
            harmless += 1
        else:
            crashed += 1
    print(f'{name}: of {steps} single skips {opened} opened the lock, {crashed} crashed, {harmless} did no harm')


if __name__ == '__main__':
    main()
