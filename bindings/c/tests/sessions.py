#!/usr/bin/env python3
"""Random sessions, and those of the examples, played by threads through endpoints: sessions.py PLAY [COUNT]

The documents are those that bench/sessions draws, and a few of bench/texts. What each role did must be a path of its machine as a second
reading of the rules has it (.ci/meaning.py), and what each received from each must be what that one sent, in order, up to what was
still under way when all stopped. PLAY is the program of play.c."""

import collections
import importlib.machinery
import importlib.util
import pathlib
import random
import re
import subprocess
import sys
import tempfile

sys.dont_write_bytecode = True
TOP = pathlib.Path(__file__).resolve().parents[3]
sys.path[:0] = [str(TOP / 'bench'), str(TOP / '.ci')]
import meaning

ACT = re.compile(r'(\w+)([!?])(\w+)\(([^)]*)\)')
FORMS = {'unit': '', 'bool': 'true|false', 'nat': r'\d+', 'int': r'-?\d+', 'bytes': '([0-9a-f]{2})*', 'list': r'(-?\d+(,-?\d+)*)?'}
LIMIT, AT_ONCE, MALFORMED = 200, 25, 3
OF_BENCH = ('ring 16', 'ring 64', 'choices 2', 'answered 40', 'pipeline 2')


def random_documents(count):
    loader = importlib.machinery.SourceFileLoader('random_sessions', str(TOP / 'bench/sessions'))
    module = importlib.util.module_from_spec(importlib.util.spec_from_loader('random_sessions', loader))
    loader.exec_module(module)
    return [module.document(random.Random(f'bindings {number}')) for number in range(count)]


def documents_of_bench():
    return [subprocess.run(['bash', '-c', f'. {TOP}/bench/texts; {name}'], stdout=subprocess.PIPE, check=True).stdout.decode() for name in OF_BENCH]


def state_after(machine, acts):
    """The state to which the acts lead, or what is wrong with one of them."""
    at = 0
    for peer, mark, label, value in acts:
        state = machine[at]
        if state is None or (state.peer, state.mark) != (peer, mark):
            return f'no {peer}{mark}{label} in state {at}'
        arm = next(((sort, after) for name, sort, after in state.arms if name == label), None)
        if arm is None or not re.fullmatch(FORMS[arm[0]], value):
            return f'no {peer}{mark}{label}({value}) in state {at}'
        at = arm[1]
    return at


def has_label_twice(state):
    return state is not None and len({label for label, _, _ in state.arms}) < len(state.arms)


def fault_of(text, status, acts):
    """What is wrong with the acts of the roles, or nothing."""
    document = meaning.Document(text)
    if any(has_label_twice(state) for machine in document.machines.values() for state in machine):
        return None if status == MALFORMED else f'a label twice in a state, and opened with status {status}'
    try:
        machines = meaning.derived(document)[0]
    except meaning.Refused as refused:
        return None if status == refused.status else f'opened with status {status}, and not {refused.status}'
    if status or list(acts) != document.roles:
        return f'opened with status {status}, roles {list(acts)}'
    ends = [state_after(machine, acts[role]) for role, machine in zip(document.roles, machines)]
    for role, end in zip(document.roles, ends):
        if isinstance(end, str):
            return f'{role}: {end}'
    has_ended = all(machine[end] is None for machine, end in zip(machines, ends))
    if not has_ended and max(map(len, acts.values())) < LIMIT:
        return 'the session neither ended nor met the limit'
    for sender in acts:
        for receiver in acts:
            sent = [act[2:] for act in acts[sender] if act[:2] == (receiver, '!')]
            received = [act[2:] for act in acts[receiver] if act[:2] == (sender, '?')]
            if received != sent[:len(received)] or has_ended and sent != received:
                return f'{receiver} received of {sender} {received}, and sent was {sent}'
    return None


def played(program, capacity, paths):
    """What the program prints of each text: the status, and the acts of each role."""
    run = subprocess.run([program, str(capacity), str(LIMIT), *map(str, paths)], stdout=subprocess.PIPE)
    if run.returncode:
        sys.exit(f'{program} ended with status {run.returncode}, after {run.stdout.decode().splitlines()[-1:]}')
    found, acts = [], {}
    for line in run.stdout.decode().splitlines():
        if line.startswith('status '):
            found.append((int(line[7:]), acts))
            acts = {}
        elif ':' in line:
            role, told = line.split(':', 1)
            acts[role] = ACT.findall(told)
    return found


def main(program, count='500'):
    texts = random_documents(int(count)) + documents_of_bench() + [path.read_text() for path in sorted((TOP / 'examples').glob('*.txt'))]
    counts, acts_made = collections.Counter(), 0
    with tempfile.TemporaryDirectory() as folder:
        paths = []
        for number, text in enumerate(texts):
            paths.append(pathlib.Path(folder, f'{number}.txt'))
            paths[-1].write_text(text)
        for first in range(0, len(texts), AT_ONCE):
            for text, (status, acts) in zip(texts[first:first + AT_ONCE], played(program, 0, paths[first:first + AT_ONCE]), strict=True):
                fault = fault_of(text, status, acts)
                if fault:
                    sys.exit(f'{text}\n{fault}')
                counts[status] += 1
                acts_made += sum(map(len, acts.values()))
    if counts[0] * 3 < len(texts):
        sys.exit(f'only {counts[0]} of {len(texts)} documents are accepted')
    print(f'{counts[0]} sessions were played by threads as their machines allow, in {acts_made} acts; {len(texts) - counts[0]} documents were refused')


main(*sys.argv[1:])
