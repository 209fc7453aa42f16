#!/usr/bin/env python3
"""Runs a program over the worked cases: python3 acceptance/run_cases.py [PROGRAM]

PROGRAM is crates/testgen/out/testgen where none is named. A case is a folder of cases/, named after what it shows:

  words   the words, one a line      in    standard input
  status  the exit status            out   standard output, byte for byte      err   standard error, byte for byte

After them come cases that are made here: each front of a theory with the place of its fault, inputs of the greatest size and
one byte more, theories that are accepted or refused (theories.py), long reports and those at each limit and past it (reports.py),
each rewrite schema on a term to which it applies and on one close by (rewriting.py), certificates that are accepted or refused
(certificates.py), four texts with every kind of token in every place, whose faults viable.py tells, and programs that the harness
runs (programs.py).

The last line is 'N passed, N failed'; the exit status is 0 where none failed and some passed.
"""
import concurrent.futures
import os
import re
import subprocess
import sys

import certificates
import programs
import reports
import rewriting
import theories
import viable

HERE = os.path.dirname(os.path.abspath(__file__))


def read(case, name):
    with open(os.path.join(HERE, 'cases', case, name), 'rb') as file:
        return file.read()


INC = b'theory Inc version 1 begin program put :: nat => nat; spec x . x < 3 --> x < put x; end'
LONGEST = 16_777_216


def stored():
    """The cases of the folder: name, words, input, status, output and what is on standard error."""
    for case in sorted(os.listdir(os.path.join(HERE, 'cases'))):
        yield (case, read(case, 'words').decode().splitlines(), read(case, 'in'), int(read(case, 'status')), read(case, 'out'),
               read(case, 'err'))


def cuts():
    """No front of the theory is a text: its fault stands behind the words that begin a declaration."""
    for size in range(len(INC)):
        front = INC[:size]
        line = b'refused form at declaration %d\n' % len(re.findall(rb'\b(?:program|spec)\b', front))
        yield f'cut-after-{size}-bytes', ['generate'], front, 6, line, line


def sizes():
    """A theory behind a comment that fills the input up to the greatest size, and up to one byte more."""
    report = read('class-with-datum', 'out')
    limit = b'limit input 16777216\n'
    for size, status, out, err in ((LONGEST, 0, report, b''), (LONGEST + 1, 7, limit, limit)):
        comment = b'(*' + b' ' * (size - len(INC) - 4) + b'*)'
        yield f'input-of-{size}-bytes', ['generate'], comment + INC, status, out, err


SMALL = (
    ('generate', 'Theory', INC.decode().replace(';', ' ;').split()),
    ('generate', 'Theory', "theory S version 1 begin datatype 'a t = A | B 'a ( 'a t ) ; primrec f :: nat t => nat where f A = 0 ; "
     'f ( B y ys ) = y ; spec x . let y = f x in ~ y * 2 < Suc y & ( case x of { A => True , B z zs => z = 1 } ) ; end'),
    ('generate', 'Theory', "theory M version 1 begin datatype ( 'a , 'b ) p = P 'a 'b ; definition d :: ( nat , bool ) p => bool where "
     'd x = if x = y then a --> b | c else 1 + 2 - 3 * 4 div 5 mod 6 <= Suc z ; program put :: nat => bool ; spec x . put 0 ; end'),
    ('judge', 'Judge', 'theory O version 1 begin end outcomes depth 3 bound 8 seed 1 tries 1000 width 16 begin answer 1 ( A 2 ) ; '
     'raised 2 ; end'),
)
KINDS = [*'(){}[],;.=<+-*&|~?!', '<=', '-->', '=>', '::', *sorted(viable.RESERVED), 'word', "'a", '0', '1', '7', 'depth', 'bound',
         'seed', 'tries', 'width', 'answer', 'raised', 'ALL', 'EX', 'THYP', 'tested', 'hyp', 'deep']


def tokens():
    """Four small texts with one token put in place of each, and behind the last."""
    for number, (command, part, text) in enumerate(SMALL):
        text = text.split() if isinstance(text, str) else text
        for at in range(len(text) + 1):
            for kind in KINDS:
                changed = [*text[:at], kind, *text[at + 1:]]
                place = viable.place(part, changed)
                line = None if place is None else b'refused form at declaration %d\n' % place
                yield f'text-{number}-with-{kind}-at-{at}', [command], ' '.join(changed).encode(), line


def token_faults(program, words, data, line):
    """Where the text is none, its line is printed; where it is one, any other line or a report."""
    run = subprocess.run([program, *words], input=data, stdout=subprocess.PIPE, stderr=subprocess.PIPE, timeout=120)
    if line is None:
        return [f'  {run.stdout!r} of a text'] if run.stdout.startswith(b'refused form') else []
    return [] if run.stdout == line and run.returncode == 6 else [f'  {run.stdout!r}\n  in place of {line!r}']


def faults(program, words, data, status, out, err):
    """What a case shows in place of what it should, a line each."""
    run = subprocess.run([program, *words], input=data, stdout=subprocess.PIPE, stderr=subprocess.PIPE, timeout=120)
    pairs = [('status', run.returncode, status), ('out', run.stdout, out), ('err', run.stderr, err)]
    return [f'  {name}: {have!r}\n  in place of {want!r}' for name, have, want in pairs if have != want]


def theory_faults(program, words, data, status, line):
    """A theory that is accepted has a report, and another one its line."""
    run = subprocess.run([program, *words], input=data, stdout=subprocess.PIPE, stderr=subprocess.PIPE, timeout=120)
    right = run.stdout == line == run.stderr if line else run.stdout.startswith(b'testgen T\n') and not run.stderr
    return [] if right and run.returncode == status else [f'  status {run.returncode}, {run.stdout[:200]!r}\n  in place of {status}, {line!r}']


def report_faults(program, words, data, status, lines, last):
    """The report has these lines in this order, and ends so."""
    run = subprocess.run([program, *words], input=data, stdout=subprocess.PIPE, stderr=subprocess.PIPE, timeout=120)
    have = run.stdout.decode().split('\n')
    at = 0
    for line in lines:
        if line not in have[at:]:
            return [f'  no line {line!r} behind line {at}']
        at = have.index(line, at) + 1
    return [] if run.returncode == status and have[-2:] == [last, ''] else [f'  status {run.returncode}, end {have[-2:]}\n  in place of {status}, {last!r}']


def form_faults(program, words, data, line):
    """The report has one class, without a constraint, with this check."""
    run = subprocess.run([program, *words], input=data, stdout=subprocess.PIPE, stderr=subprocess.PIPE, timeout=120)
    have = [text for text in run.stdout.split(b'\n') if text.startswith((b'class ', b'constraint', b'check'))]
    return [] if have == [b'class 1', line] else [f'  {have!r}\n  in place of {line!r}']


def main():
    program = os.path.abspath(sys.argv[1] if len(sys.argv) > 1 else os.path.join(HERE, '..', 'crates/testgen/out/testgen'))
    if not os.access(program, os.X_OK):
        print(f'no program stands at {program}: rt ci makes it\n0 passed, 1 failed')
        return 1
    cases = [(faults, case) for case in (*stored(), *cuts(), *sizes(), *certificates.cases())]
    for check, made in ((theory_faults, theories.cases()), (report_faults, reports.cases()), (form_faults, rewriting.cases()), (token_faults, tokens()),
                        (programs.faults, programs.cases())):
        cases += [(check, case) for case in made]
    passed = failed = 0
    with concurrent.futures.ThreadPoolExecutor() as pool:
        for (_, case), found in zip(cases, pool.map(lambda c: c[0](program, *c[1][1:]), cases)):
            if found:
                failed += 1
                print('\n'.join([f'FAILED {case[0]}', *found]))
            else:
                passed += 1
    print(f'{passed} passed, {failed} failed')
    return 1 if failed or not passed else 0


if __name__ == '__main__':
    sys.exit(main())
