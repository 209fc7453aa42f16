"""Programs that the harness runs, as the user's guide does: each gives its last line, or the line that refuses its outcomes.

A program whose compiler or interpreter this machine lacks is left out, and a line says so. Each script runs under every shell
of SHELLS that is here.
"""
import os
import shutil
import subprocess
import tempfile

TOP = os.path.join(os.path.dirname(os.path.abspath(__file__)), '..')
EXAMPLES = os.path.join(TOP, 'examples')
SHELLS = ('sh', 'dash', 'bash')
PASSED = b'passed 1 failed 0 undecided 0 raised 0 missing 0 open 0'
# the theory, the program, what it needs, the status of the judgement, and its last line
RUNS = (
    ('inc', 'increment.c', 'cc', 0, PASSED),
    ('inc', 'increment.sh', 'sh', 0, PASSED),
    ('sort', 'sort.py', 'python3', 0, b'passed 4 failed 0 undecided 0 raised 0 missing 0 open 0'),
    ('sort', 'largest-first.py', 'python3', 1, b'passed 3 failed 1 undecided 0 raised 0 missing 0 open 0'),
    ('inc', 'crash.sh', 'sh', 0, b'passed 0 failed 0 undecided 0 raised 1 missing 0 open 0'),
    ('inc', 'nonsense.sh', 'sh', 6, b'refused answer at test 1'),
    ('inc', 'silent.sh', 'sh', 6, b'refused form at declaration 3'),
)
# a function that stands in gives outcomes of which each test passes
STAND_INS = (('sort', 'isort', b'passed 4 failed 0 undecided 0 raised 0 missing 0 open 0'),)


def theory(name):
    with open(os.path.join(EXAMPLES, name + '.thy'), 'rb') as file:
        return file.read()


def cases():
    for name, program, needed, status, last in RUNS:
        for shell in SHELLS:
            if shutil.which(needed) and shutil.which(shell):
                yield f'{program}-under-{shell}', shell, name, program, status, last
            else:
                print(f'left out: {program} under {shell}, for {needed} or {shell} is missing')
    for name, function, last in STAND_INS:
        yield f'{function}-stands-in', None, name, function, 0, last


def judged(program, data, status, last):
    run = subprocess.run([program, 'judge'], input=data, stdout=subprocess.PIPE, stderr=subprocess.PIPE, timeout=120)
    have = run.stdout.rstrip(b'\n').split(b'\n')[-1]
    return [] if (run.returncode, have) == (status, last) else [f'  status {run.returncode}, {have!r}\n  in place of {status}, {last!r}']


def faults(program, shell, name, tested, status, last):
    """What a judgement shows in place of what it should."""
    data = theory(name)
    if shell is None:
        return judged(program, data + subprocess.run([program, 'simulate', tested], input=data, stdout=subprocess.PIPE, timeout=120).stdout, status, last)
    with tempfile.TemporaryDirectory() as folder:
        path = os.path.join(EXAMPLES, 'programs', tested)
        if tested.endswith('.c'):
            built = os.path.join(folder, 'built')
            subprocess.run(['cc', '-o', built, path], check=True, timeout=120)
            path = built
        script = os.path.join(folder, 'harness.sh')
        with open(script, 'wb') as file:
            subprocess.run([program, 'harness'], input=data, stdout=file, check=True, timeout=120)
        run = subprocess.run([shell, script, path], stdout=subprocess.PIPE, timeout=120)
        return judged(program, data + run.stdout, status, last)
