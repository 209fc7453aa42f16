"""Theories that are accepted or refused, each with the line that is printed: for each rule of acceptance one text that breaks
it, and one beside it that doesn't. An accepted theory gets its report, but for one whose classes pass a limit."""

LIST = "datatype 'a list = Nil | Cons 'a ('a list); "
TREE = "datatype tree = Leaf | Node tree tree; "
PUT = 'program put :: nat => nat; '
SPEC = 'spec x . put x = x; '
END = PUT + SPEC


def nested_pairs(count):
    """A specification of nested `let`s whose type is a tree of 2^count nodes."""
    lets = ''.join(f'let v{i} = P v{i - 1} v{i - 1} in ' for i in range(1, count + 1))
    return "datatype ('a, 'b) p = P 'a 'b; " + PUT + f'spec v0 . {lets}put v0 = 0; '


def term_of(size):
    """A term of this odd number of nodes, in brackets of fifty operands each."""
    items = ['1'] * ((size + 1) // 2)
    while len(items) > 1:
        items = ['(' + ' + '.join(items[i:i + 50]) + ')' if len(items[i:i + 50]) > 1 else items[i] for i in range(0, len(items), 50)]
    return items[0]


# the declarations, and the kind and place, or None where the theory is accepted
THEORIES = [
    # names
    (LIST + LIST + END, 'name 2'),
    (LIST + "datatype t = A; " + END, None),
    (LIST + "datatype t = Nil; " + END, 'name 2'),
    ("datatype t = A | A; " + END, 'name 1'),
    ("datatype t = t; " + END, None),
    (PUT + "definition put :: nat where put = 0; " + SPEC, 'name 2'),
    ("definition f :: nat where f = 0; primrec f :: nat => nat where f 0 = 0; f (Suc n) = n; " + END, 'name 2'),
    ("datatype t = A s; " + END, 'name 1'),
    ("datatype t = A 'a; " + END, 'name 1'),
    ("datatype 'a t = A 'a; " + END, None),
    ("definition f :: nat => nat where f n = m; " + END, 'name 1'),
    ("definition f :: nat => nat where f n = n; " + END, None),
    ("definition f :: nat => nat where f n = f n; " + END, 'name 1'),
    ("primrec f :: nat => nat where f 0 = 0; f (Suc n) = f n; " + END, None),
    ("definition f :: nat => nat where f n = g n; definition g :: nat => nat where g n = n; " + END, 'name 1'),
    (LIST + "definition f :: nat => nat where f (nil xs) = 0; " + END, 'name 2'),
    (LIST + "definition f :: nat list => nat where f xs = case xs of { nil => 0 , Cons y ys => 1 }; " + END, 'name 2'),
    (LIST + "definition f :: nat => nat where f Nil = 0; " + END, 'typing 2'),
    (LIST + "definition f :: nat => nat where f n = let Nil = 0 in n; " + END, 'name 2'),
    (LIST + "definition f :: nat => nat where f n = let m = 0 in n; " + END, None),
    ("definition f :: nat => nat where f f = 0; " + END, 'name 1'),
    (LIST + "primrec f :: nat list => nat where f Nil = 0; f (Cons Nil xs) = 0; " + END, 'name 2'),
    (LIST + "primrec f :: nat list => nat where f (Nil) = 0; f (Cons x xs) = 0; " + END, None),
    (PUT + 'spec put . put = 0; ', 'name 2'),
    ("definition f :: nat => bool where f x = x = (case 0 of { 0 => 1 , Suc f => 2 }); " + END, 'name 1'),
    # the first kind of a whole declaration
    (LIST + "primrec f :: nat => bool where f 0 = Nil = Nil; f (Suc n) = m; " + END, 'name 2'),
    # typings
    (LIST + "datatype t = A list; " + END, 'typing 2'),
    (LIST + "datatype t = A (nat list); " + END, None),
    (LIST + "definition f :: (nat, nat) list => nat where f x = 0; " + END, 'typing 2'),
    (LIST + "definition f :: nat list where f = Cons 0; " + END, 'typing 2'),
    (LIST + "definition f :: nat list where f = Cons 0 Nil; " + END, None),
    ("definition f :: nat => nat where f x = x 0; " + END, 'typing 1'),
    ("definition f :: nat => bool where f n = n = True; " + END, 'typing 1'),
    ("definition f :: nat => bool where f n = n = n; " + END, None),
    ("definition f :: nat => nat where f x x = 0; " + END, 'typing 1'),
    ("definition f :: nat => bool => nat where f x x = x; " + END, 'typing 1'),
    ("definition f :: bool => bool where f b = b < b; " + END, 'typing 1'),
    ("definition f :: nat => nat where f n = if n then 0 else 1; " + END, 'typing 1'),
    ("definition f :: nat => nat where f n = if n = 0 then 0 else 1; " + END, None),
    ("definition f :: 'a => 'a where f x = 0; " + END, 'typing 1'),
    ("definition f :: 'a => 'a where f x = x; " + END, None),
    (LIST + "definition f :: nat list => nat where f xs = case xs of { Nil => 0 , Cons y => 1 }; " + END, 'typing 2'),
    (LIST + "definition f :: nat list => nat where f xs = case xs of { Nil => 0 , Cons y ys => True }; " + END, 'typing 2'),
    ("definition f :: 'a => nat where f x = 0; definition g :: nat where g = f 0 + f True; " + END, None),
    ("primrec f :: nat => 'a => nat where f 0 x = 0; f (Suc n) x = f n True; " + END, 'typing 1'),
    ("definition f :: nat where f = let x = 0 in if x then x else x; " + END, 'typing 1'),
    (PUT + 'spec x . put x; ', 'typing 2'),
    # several typings
    (LIST + "definition f :: nat => bool where f n = Nil = Nil; " + END, 'ambiguous 2'),
    (LIST + "definition f :: nat => bool where f n = Nil = Cons n Nil; " + END, None),
    (LIST + "definition f :: nat => nat where f n = let x = Nil in n; " + END, 'ambiguous 2'),
    # shapes
    ("datatype ('a, 'a) t = A 'a; " + END, 'shape 1'),
    ("datatype ('a, 'b) t = A 'a; " + END, None),
    (LIST + "datatype t = B | A (t list); " + END, 'shape 2'),
    ("datatype ('a, 'b) t = B | A (('b, 'a) t); " + END, 'shape 1'),
    ("datatype ('a, 'b) t = B | A (('a, 'b) t); " + END, None),
    ("datatype t = A t; " + END, 'shape 1'),
    (TREE + END, None),
    ("definition f :: nat => nat where g n = n; " + END, 'shape 1'),
    ("definition f :: nat => nat => nat where f x x = x; " + END, 'shape 1'),
    ("primrec f :: nat => nat where f n = n; " + END, 'shape 1'),
    ("primrec f :: nat => nat => nat where f 0 0 = 0; f (Suc n) (Suc m) = n; " + END, 'shape 1'),
    ("primrec f :: nat => nat => nat where f 0 m = 0; f n (Suc m) = n; " + END, 'shape 1'),
    (LIST + "primrec len :: nat list => nat where len Nil = 0; " + END, 'shape 2'),
    (LIST + "primrec len :: nat list => nat where len Nil = 0; len (Cons x xs) = Suc (len xs); " + END, None),
    (LIST + "primrec len :: nat list => nat where len Nil = 0; len Nil = 0; len (Cons x xs) = Suc (len xs); " + END, 'shape 2'),
    (LIST + "primrec f :: nat list => nat where f Nil = 0; f (Cons x xs) = f (Cons x xs); " + END, 'shape 2'),
    (LIST + "primrec f :: nat list => nat where f Nil = 0; f (Cons x xs) = let ys = xs in f ys; " + END, 'shape 2'),
    (LIST + "primrec f :: (nat list) list => nat where f Nil = 0; f (Cons x xs) = f xs; " + END, None),
    ("primrec f :: nat => nat => nat where f 0 m = m; f (Suc n) m = f m n; " + END, 'shape 1'),
    ("primrec f :: nat => nat => nat where f 0 m = m; f (Suc n) m = f n (f n m); " + END, None),
    ("definition f :: nat => nat where f n = n; f n = n; " + END, 'shape 1'),
    ("definition f :: nat => nat where f 0 = 0; " + END, 'shape 1'),
    (LIST + "definition f :: nat list => nat where f xs = case xs of { Nil => 0 }; " + END, 'shape 2'),
    (LIST + "definition f :: nat list => nat where f xs = case xs of { Nil => 0 , Nil => 1 , Cons y ys => 2 }; " + END, 'shape 2'),
    (LIST + "definition f :: nat list => nat where f xs = case xs of { Cons y y => 2 , Nil => 0 }; " + END, 'shape 2'),
    (LIST + "definition f :: nat list => nat where f xs = case xs of { Cons y ys => y , Nil => 0 }; " + END, None),
    ('program put :: nat => nat => nat; spec x x . put x x = 0; ', 'shape 2'),
    # the program and the specification
    (PUT + 'program other :: nat => nat; ' + SPEC, 'program 2'),
    (END + 'spec y . put y = 0; ', 'program 3'),
    (END + 'spec y . put z = 0; ', 'name 3'),
    ('program put :: nat; spec x . x = 0; ', 'program 1'),
    ('program put :: ' + 'nat => ' * 8 + 'nat; spec a b c d e f g h . put a b c d e f g h = 0; ', None),
    ('program put :: ' + 'nat => ' * 9 + 'nat; spec x . x = 0; ', 'program 1'),
    ("program put :: 'a => nat; spec x . put x = 0; ", 'program 1'),
    ("program put :: 'a t => nat; spec x . put x = 0; ", 'name 1'),
    (LIST + "program put :: 'a list => nat; spec x . put x = 0; ", 'program 2'),
    (PUT + "definition f :: nat => nat where f n = put n; " + SPEC, 'program 2'),
    (PUT + 'spec x . put 0 = x; ', 'program 2'),
    (PUT + 'spec x . let x = x in put x = x; ', 'program 2'),
    ('program put :: nat => nat => nat; spec x y . put y x = 0; ', 'program 2'),
    ('program put :: nat => nat => nat; spec x y . put x y = 0; ', None),
    (PUT + 'spec x . x = 0; ', None),
    (SPEC + PUT, 'program 1'),
    (PUT + 'spec x y . put x = y; ', 'program 2'),
    ('program put :: nat => nat => nat; spec x . put x x = 0; ', 'program 2'),
    (PUT, 'program 2'),
    (LIST, 'program 2'),
    ('', 'program 1'),
    (END + "definition f :: nat where f = 0; ", None),
    # sizes
    ("definition f :: nat where f = " + term_of(99_999) + '; ' + END, None),
    ("definition f :: nat where f = " + term_of(100_001) + '; ' + END, 'termsize'),
    ("definition f :: nat where f = unknown + " + term_of(100_001) + '; ' + END, 'termsize'),
    # types that are large as trees, and terms
    (nested_pairs(150), 'steps'),
]


def line_of(answer):
    if answer is None:
        return 0, None
    if answer == 'steps':
        return 7, b'limit steps 2000000\n'
    if answer == 'termsize':
        return 7, b'limit termsize 100000\n'
    kind, place = answer.split()
    return 6, b'refused %s at declaration %s\n' % (kind.encode(), place.encode())


def cases():
    """Name, words, input, status, and the output, or None where it is a report."""
    for number, (declarations, answer) in enumerate(THEORIES):
        status, line = line_of(answer)
        text = f'theory T version 1 begin {declarations}end'.encode()
        yield f'theory-{number}', ['generate'], text, status, line
