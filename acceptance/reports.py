"""Reports that are too long or too many to be stored: each with lines that it has, and how it ends."""
from functools import reduce

LIST = "datatype 'a list = Nil | Cons 'a ('a list); "
TREE = 'datatype tree = Leaf | Node tree nat tree; program put :: tree => tree; spec t . put t = t; '
SORT = (LIST + 'primrec ins :: nat => (nat list) => (nat list) where ins x Nil = Cons x Nil; '
        'ins x (Cons y ys) = if x <= y then Cons x (Cons y ys) else Cons y (ins x ys); '
        'primrec isort :: nat list => nat list where isort Nil = Nil; isort (Cons x xs) = ins x (isort xs); '
        'program put :: nat list => nat list; spec xs . put xs = isort xs; ')
GRID = ('primrec line :: nat => nat where line 0 = 0; line (Suc n) = line n; '
        'primrec grid :: nat => nat => nat where grid 0 m = 0; grid (Suc n) m = line m + grid n m; ')
PUT = 'program put :: nat => nat; '
DUP = 'definition dup :: nat => nat where dup x = x + x; ' + PUT


def doubled(count):
    return reduce(lambda term, _: f'dup ({term})', range(count), 'x')


def chain(count):
    """A specification whose split tree is a chain of so many inner nodes, all leaves True."""
    links = ''.join(f'definition p{n} :: nat => bool where p{n} x = if x = {n} then True else p{n - 1} x; ' for n in range(1, count + 1))
    return 'definition p0 :: nat => bool where p0 x = True; ' + links + PUT + f'spec x . p{count} x; '


def clauses(more):
    """A specification with 4,096 clauses, and more."""
    halves = ''.join(f'definition c{n} :: nat => nat => bool where c{n} x m = c{n - 1} x (2 * m) & c{n - 1} x (2 * m + 1); ' for n in range(1, 13))
    return 'definition c0 :: nat => nat => bool where c0 x m = x < m; ' + halves + PUT + f'spec x . c12 x 1{more}; '


def counted_down(term):
    """A specification whose normal form takes twice as many calls as the number from which is counted down, and six."""
    return ('datatype box = N nat; primrec down :: nat => nat where down 0 = 0; down (Suc n) = down n; '
            + f'program put :: nat => {"box" if term.startswith("N") else "nat"}; spec x . put x = {term}; ')


# name, declarations, options, status, lines in their order, the last line
REPORTS = [
    ('sorting-to-depth-7', SORT, '--depth 7', 0, [], 'classes 874 tests 874 open 0'),
    ('trees-to-depth-4', TREE, '--depth 4', 0, [], 'classes 26 tests 26 open 0'),
    ('trees-to-depth-5', TREE, '--depth 5', 0, [], 'classes 677 tests 677 open 0'),
    ('trees-to-depth-6', TREE, '--depth 6', 7, [], 'limit patterns 4096'),
    ('4096-patterns', 'datatype d = ' + ' | '.join(f'C{n}' for n in range(16)) + '; program put :: d => d => d => nat; spec x y z . put x y z = 0; ',
     '', 0, [], 'classes 4096 tests 4096 open 0'),
    ('4112-patterns', 'datatype d = ' + ' | '.join(f'C{n}' for n in range(16)) + '; datatype e = ' + ' | '.join(f'D{n}' for n in range(257))
     + '; program put :: d => e => nat; spec x y . put x y = 0; ', '', 7, [], 'limit patterns 4096'),
    ('fifteen-doublings', DUP + f'spec x . put x = {doubled(15)}; ', '', 0, ['datum 0'], 'classes 1 tests 1 open 0'),
    ('sixteen-doublings', DUP + f'spec x . put x = {doubled(16)}; ', '', 7, [], 'limit steps 2000000'),
    ('a-datum-in-a-rising-chain', 'program put :: nat => nat => nat => nat; spec a b c . a < b --> b < c --> put a b c = 0; ', '', 0, ['datum 0 1 2'],
     'classes 1 tests 1 open 0'),
    ('a-constraint-past-the-bounds', GRID + PUT + 'spec x . grid x x = 1 --> put x = 0; ', '--bound 100 --tries 0', 0, ['open'], 'classes 1 tests 0 open 1'),
    ('a-datum-in-order', PUT + 'spec x . x = 1000 --> put x = 1; ', '--bound 1000', 0, ['datum 1000'], 'classes 1 tests 1 open 0'),
    ('no-datum-by-draws', PUT + 'spec x . x = 1000 --> put x = 1; ', '', 0, ['open'], 'classes 1 tests 0 open 1'),
    ('no-datum-without-draws', PUT + 'spec x . x = 9 --> put x = 1; ', '--tries 0', 0, ['open'], 'classes 1 tests 0 open 1'),
    ('the-datum-at-bound-0', PUT + 'spec x . x < 9 --> put x = 1; ', '--bound 0 --tries 0', 0, ['datum 0'], 'classes 1 tests 1 open 0'),
    ('eight-inputs', 'program put :: ' + 'nat => ' * 8 + 'nat; spec a b c d e f g h . a + b + c + d + e + f + g + h = 8 --> put a b c d e f g h = 0; ',
     '--bound 20000 --tries 0', 0, ['pattern ?1 ?2 ?3 ?4 ?5 ?6 ?7 ?8'], 'classes 1 tests 1 open 0'),
    ('no-variable', 'datatype unit = Unit; program put :: unit => nat; spec u . put u = 7; ', '', 0,
     ['pattern Unit', 'check ((put Unit) = 7)', 'datum Unit'], 'classes 1 tests 1 open 0'),
    ('regularity-without-recursion', 'datatype unit = Unit; program put :: unit => nat; spec u . put u = 7; ', '', 0,
     ['regularity (THYP (ALL unit. ((tested !1) --> ((deep 3 !1) --> [((put !1) = 7)]))))'], 'classes 1 tests 1 open 0'),
    ('no-value-of-depth-1', LIST + 'datatype box = Box (nat list); program put :: box => nat; spec b . put b = 0; ', '--depth 1', 0, [],
     'classes 0 tests 0 open 0'),
    ('three-naturals', 'datatype kind = Equi | Iso | Scal; definition classify :: nat => nat => nat => kind where classify a b c = '
     'if a = b & b = c then Equi else if a = b | b = c | a = c then Iso else Scal; program put :: nat => nat => nat => kind; '
     'spec a b c . a < b + c & b < a + c & c < a + b --> put a b c = classify a b c; ', '', 0,
     ['datum 1 1 1', 'datum 1 2 2', 'datum 2 1 2', 'datum 2 2 1', 'datum 2 1 2', 'datum 2 3 4'], 'classes 6 tests 6 open 0'),
    ('truth-values', 'program put :: bool => bool; spec b . put b = (~ b); ', '', 0,
     ['constraint ?1', 'check (~ (put ?1))', 'datum True', 'constraint (~ ?1)', 'check (put ?1)', 'datum False'], 'classes 2 tests 2 open 0'),
    ('binders', 'program put :: nat => nat => nat; spec x y . put x y = (let z = x in (case y of {0 => z, Suc x => z + x})); ', '', 0,
     ['check ((put ?1 ?2) = (case ?2 of {0 => ?1, Suc !1 => (?1 + !1)}))', 'datum 0 0'], 'classes 1 tests 1 open 0'),
    ('the-greatest-literal', PUT + 'spec x . put x = 18446744073709551615; ', '', 0, ['check ((put ?1) = 18446744073709551615)'], 'classes 1 tests 1 open 0'),
    ('a-name-of-a-kilobyte', f'program {"p" * 1024} :: nat => nat; spec x . {"p" * 1024} x = x; ', '', 0, [f'check (({"p" * 1024} ?1) = ?1)'],
     'classes 1 tests 1 open 0'),
    ('4096-splits', chain(4096), '', 0, [], 'classes 0 tests 0 open 0'),
    ('4097-splits', chain(4097), '', 7, [], 'limit splits 4096'),
    ('2000000-calls', counted_down('down 999997'), '', 0, ['check ((put ?1) = 0)'], 'classes 1 tests 1 open 0'),
    ('2000001-calls', counted_down('N (down 999997)'), '', 7, [], 'limit steps 2000000'),
    ('4096-clauses', clauses(''), '--bound 20000 --tries 0', 0, [], 'classes 4096 tests 4096 open 0'),
    ('4097-clauses', clauses(' & x < 9000'), '', 7, [], 'limit clauses 4096'),
]


def cases():
    """Name, words, input, status, lines and last line."""
    for name, declarations, options, status, lines, last in REPORTS:
        yield name, ['generate', *options.split()], f'theory T version 1 begin {declarations}end'.encode(), status, lines, last
