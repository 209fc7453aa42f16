"""Certificates that `check` accepts or refuses, each with all that is printed.

A file of certificates/passing and certificates/refused stands behind the theory certificates/rules.thy, or is the whole input where it
begins with a theory of its own; the comment at its end has what is printed. The examples of docs/RULES.md stand behind the theory of
that page. Each rewrite schema comes on a term to which it applies and on one to which it doesn't.
"""
import os
import re

HERE = os.path.dirname(os.path.abspath(__file__))
FOLDER = os.path.join(HERE, 'certificates')
PAGE = os.path.join(HERE, '..', 'docs', 'RULES.md')
RULES = ('hyp weak cut grow andI andL andR impI mp allI allE exI exE thypI thypE true false split refl sym trans replace schema exhaust '
         'deep compute').split()
STATUS = {'checked': 0, 'refused': 6, 'limit': 7}

# schema, a term and what the schema makes of it, a term to which it doesn't apply; a schema with a second form has two rows
TYPES = '{nat, nat, bool, (nat list)}'
SCHEMAS = [
    ('not_true', '(~ True)', 'False', '(~ False)'),
    ('not_false', '(~ False)', 'True', '(~ ?3)'),
    ('not_not', '(~ (~ ?3))', '?3', '(~ ?3)'),
    ('and_true_l', '(True & ?3)', '?3', '(?3 & True)'),
    ('and_false_l', '(False & ?3)', 'False', '(?3 & False)'),
    ('and_true_r', '(?3 & True)', '?3', '(True & ?3)'),
    ('and_false_r', '(?3 & False)', 'False', '(?3 & True)'),
    ('and_same', '((?1 < 3) & (?1 < 3))', '(?1 < 3)', '((?1 < 3) & (?1 < 4))'),
    ('or_true_l', '(True | ?3)', 'True', '(False | ?3)'),
    ('or_false_l', '(False | ?3)', '?3', '(?3 | False)'),
    ('or_true_r', '(?3 | True)', 'True', '(?3 | False)'),
    ('or_false_r', '(?3 | False)', '?3', '(?3 | True)'),
    ('or_same', '(?3 | ?3)', '?3', '(?3 & ?3)'),
    ('imp_true_l', '(True --> ?3)', '?3', '(?3 --> True)'),
    ('imp_false_l', '(False --> ?3)', 'True', '(True --> ?3)'),
    ('imp_true_r', '(?3 --> True)', 'True', '(?3 --> False)'),
    ('imp_false_r', '(?3 --> False)', '(~ ?3)', '(False --> ?3)'),
    ('imp_same', '(?3 --> ?3)', 'True', '(?3 --> (~ ?3))'),
    ('if_true', '(if True then ?1 else ?2)', '?1', '(if ?3 then ?1 else ?2)'),
    ('if_false', '(if False then ?1 else ?2)', '?2', '(if True then ?1 else ?2)'),
    ('if_same', '(if ?3 then ?1 else ?1)', '?1', '(if ?3 then ?1 else ?2)'),
    ('let_sub', '(let !1 = (?1 + ?2) in (!1 * !1))', '((?1 + ?2) * (?1 + ?2))', '(?1 + ?2)'),
    ('let_sub', '(let !1 = ?1 in (let !2 = !1 in (!1 + !2)))', '(let !1 = ?1 in (?1 + !1))', '(case ?1 of {0 => 0, Suc !1 => !1})'),
    ('case_con', '(case (Cons ?1 ?4) of {Nil => 0, Cons !1 !2 => !1})', '?1', '(case ?4 of {Nil => 0, Cons !1 !2 => !1})'),
    ('case_con', '(case Nil of {Nil => ?2, Cons !1 !2 => !1})', '?2', '(case 0 of {0 => ?2, Suc !1 => !1})'),
    ('case_suc', '(case (Suc ?1) of {0 => 0, Suc !1 => !1})', '?1', '(case 1 of {0 => 0, Suc !1 => !1})'),
    ('case_lit', '(case 7 of {0 => 0, Suc !1 => (!1 + ?1)})', '(6 + ?1)', '(case (Suc 6) of {0 => 0, Suc !1 => (!1 + ?1)})'),
    ('case_lit', '(case 0 of {0 => ?2, Suc !1 => !1})', '?2', '(case ?1 of {0 => ?2, Suc !1 => !1})'),
    ('unfold_def', '(twice (?1 + 1))', '((?1 + 1) + (?1 + 1))', '(before ?1)'),
    ('unfold_con', '(length (Cons ?1 ?4))', '(Suc (length ?4))', '(length ?4)'),
    ('unfold_con', '(length Nil)', '0', '(twice 0)'),
    ('unfold_suc', '(before (Suc ?1))', '?1', '(before 1)'),
    ('unfold_lit', '(before 7)', '6', '(before (Suc 6))'),
    ('unfold_lit', '(before 0)', '0', '(before ?1)'),
    ('eq_same', '(?1 = ?1)', 'True', '(?1 = ?2)'),
    ('eq_con', '((Cons ?1 ?4) = (Cons ?2 Nil))', '((?1 = ?2) & (?4 = Nil))', '(Nil = Nil)'),
    ('eq_con', '((Node Leaf ?1 Leaf) = (Node Leaf ?2 Leaf))', '((Leaf = Leaf) & ((?1 = ?2) & (Leaf = Leaf)))', '((Cons ?1 ?4) = ?4)'),
    ('eq_con_diff', '((Cons ?1 ?4) = Nil)', 'False', '(?4 = Nil)'),
    ('eq_lit', '(3 = 4)', 'False', '(3 = 3)'),
    ('eq_suc', '((Suc ?1) = (Suc ?2))', '(?1 = ?2)', '((Suc ?1) = ?2)'),
    ('eq_zero_suc', '(0 = (Suc ?1))', 'False', '(1 = (Suc ?1))'),
    ('eq_zero_suc', '((Suc ?1) = 0)', 'False', '(0 = ?1)'),
    ('eq_suc_lit', '((Suc ?1) = 7)', '(?1 = 6)', '((Suc ?1) = 0)'),
    ('eq_suc_lit', '(7 = (Suc ?1))', '(6 = ?1)', '(0 = (Suc ?1))'),
    ('eq_true', '(?3 = True)', '?3', '(?3 = False)'),
    ('eq_true', '(True = ?3)', '?3', '(?3 = ?3)'),
    ('eq_false', '(?3 = False)', '(~ ?3)', '(?3 = True)'),
    ('eq_false', '(False = ?3)', '(~ ?3)', '(~ ?3)'),
    ('suc_lit', '(Suc 18446744073709551614)', '18446744073709551615', '(Suc 18446744073709551615)'),
    ('add_lit', '(18446744073709551614 + 1)', '18446744073709551615', '(18446744073709551615 + 1)'),
    ('sub_lit', '(3 - 5)', '0', '(3 - ?1)'),
    ('mul_lit', '(4294967295 * 4294967297)', '18446744073709551615', '(4294967296 * 4294967296)'),
    ('div_lit', '(7 div 2)', '3', '(7 mod 2)'),
    ('div_lit', '(7 div 0)', '0', '(?1 div 2)'),
    ('mod_lit', '(7 mod 2)', '1', '(7 div 2)'),
    ('mod_lit', '(7 mod 0)', '7', '(?1 mod 2)'),
    ('less_same', '(?1 < ?1)', 'False', '(?1 < ?2)'),
    ('less_lit', '(3 < 4)', 'True', '(?1 < 4)'),
    ('le_same', '(?1 <= ?1)', 'True', '(?1 < ?1)'),
    ('le_lit', '(5 <= 4)', 'False', '(?1 <= 4)'),
]


def read(path):
    with open(path) as file:
        return file.read()


def case(name, text, out):
    """Name, words, input, status, output and what is on standard error."""
    status = STATUS[out.split()[0]]
    return name, ['check'], text.encode(), status, out.encode(), out.encode() if status else b''


def framed(lines):
    return lines if lines.startswith('certificate') else f'certificate 1 begin\n{lines}end\n'


def stored():
    theory = read(os.path.join(FOLDER, 'rules.thy'))
    for folder in ('passing', 'refused'):
        for name in sorted(os.listdir(os.path.join(FOLDER, folder))):
            text = read(os.path.join(FOLDER, folder, name))
            out = text.rpartition('(*\n')[2].removesuffix('*)\n')
            yield case(f'{folder}/{name.removesuffix(".txt")}', text if text.startswith('theory') else theory + text, out)


def examples():
    """The examples of the page, in order: the rule, the lines, and what is printed."""
    theory = rule = lines = None
    for heading, info, text in re.findall(r'^(?:## (.*)|```(.*)\n((?:(?!```).*\n)*)```)$', read(PAGE), re.MULTILINE):
        if heading:
            rule = heading
        elif info == 'theory':
            theory = text
        elif info == 'certificate passes':
            lines = text
        elif info == 'sequent':
            head = '' if text.startswith('checked') else f'checked {theory.split()[1]}\nlines {lines.count(";")}\n'
            yield rule, theory, lines, head + text
        elif info.startswith('certificate refused'):
            yield rule, theory, text, info.replace('certificate refused', 'refused certificate') + '\n'


def page():
    shown = set()
    for number, (rule, theory, lines, out) in enumerate(examples(), 1):
        shown.add((rule, out.split()[0]))
        yield case(f'rules-page-example-{number}', theory + framed(lines), out)
    missing = [(rule, kind) for rule in RULES for kind in ('checked', 'refused') if (rule, kind) not in shown]
    assert not missing, f'docs/RULES.md has no examples for {missing}'


def schemas():
    theory = read(os.path.join(FOLDER, 'rules.thy'))
    for number, (schema, term, result, other) in enumerate(SCHEMAS, 1):
        passing = f'checked Rules\nlines 1\nvars {TYPES}\nconclusion [({term} = {result})]\n'
        for name, tried, out in (('schema', term, passing), ('beside-schema', other, 'refused certificate at line 1\n')):
            yield case(f'certificate-{name}-{number}-{schema}', theory + framed(f'1 schema {TYPES} {schema} {tried};\n'), out)


def long():
    """A certificate of many lines, and formulas at the limit of nesting and past it."""
    theory = read(os.path.join(FOLDER, 'rules.thy'))
    lines = '1 true {};\n' + ''.join(f'{n} weak {n - 1} [True];\n' for n in range(2, 20001))
    out = 'checked Rules\nlines 20000\nvars {}\nhypothesis [True]\nconclusion [True]\n'
    yield case('certificate-of-20000-lines', theory + framed(lines), out)
    formula = '(THYP ' * 399 + '[True]' + ')' * 399
    out = f'checked Rules\nlines 1\nvars {{}}\nhypothesis {formula}\nconclusion {formula}\n'
    yield case('formula-400-deep', theory + framed(f'1 hyp {{}} {formula};\n'), out)
    yield case('formula-401-deep', theory + framed(f'1 hyp {{}} (THYP {formula});\n'), 'limit nesting 400\n')


def cases():
    """Name, words, input, status, output and what is on standard error."""
    for made in (stored(), page(), schemas(), long()):
        yield from made
