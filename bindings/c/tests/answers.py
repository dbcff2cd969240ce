#!/usr/bin/env python3
"""Each stored answer comes out of the library too, byte by byte and with its status: answers.py ASK, where ASK is the program of ask.c.

Cases that ask for several workers are answered by the library with a status of its own, since it has none."""

import concurrent.futures
import os
import pathlib
import re
import subprocess
import sys

TOP = pathlib.Path(__file__).resolve().parents[3]
NEEDS_WORKERS, STOPPED = 16, 9


def cases():
    """The name of each case, its words, its input, and the status and the text of its answer; no status if it may be that of a stopped run."""
    for case in sorted(TOP.glob('tests/*/*')):
        words, data, output, status = ((case / name).read_bytes() if (case / name).exists() else b'' for name in ('words', 'input', 'output', 'status'))
        yield str(case.relative_to(TOP)), words.split(b'\n')[:-1], data, int(status or 0), output
    for path in sorted(TOP.glob('examples/*.txt')):
        for word in ('check', 'project', 'run'):
            output = (TOP / f'examples/answers/{path.stem}.{word}').read_bytes()
            yield f'{path.stem}.{word}', [word.encode()], path.read_bytes(), STOPPED if output.startswith(b'stopped') else 0, output


def asks_for_workers(words):
    found = re.search(rb'--workers[\0=](\d+)', b'\0'.join(words))
    return found is not None and found[1] != b'1'


def main(program):
    def answered(case):
        name, words, data, status, output = case
        run = subprocess.run([program, *words], input=data, stdout=subprocess.PIPE, timeout=60)
        if run.returncode == NEEDS_WORKERS and asks_for_workers(words):
            return 'workers'
        if (run.returncode, run.stdout) == (status, output):
            return 'same'
        print(f'{name}: status {run.returncode}, {run.stdout[:300]!r}, and not {status}, {output[:300]!r}')
        return 'other'

    with concurrent.futures.ThreadPoolExecutor(len(os.sched_getaffinity(0))) as pool:
        found = list(pool.map(answered, cases()))
    print(f'{found.count("same")} answers are those of the program, {found.count("workers")} ask for workers, {found.count("other")} are others')
    return 1 if 'other' in found or found.count('same') < 500 else 0


sys.exit(main(sys.argv[1]))
