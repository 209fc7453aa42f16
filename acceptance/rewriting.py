"""The rewrite schemas in their order, each on a term to which it applies and on one close by, to which it doesn't.

A term stands for itself in the specification `put x = BOX term` of a theory with the program `put :: nat => box`; `?1` is the input.
The normal form is what is printed on the right side of the class's check, so each line is one class without constraint.
"""

THEORY = (
    "theory Rows version 1 begin datatype 'a list = Nil | Cons 'a ('a list); datatype box = B bool | N nat | L (nat list); "
    "definition twice :: nat => nat where twice n = n + n; "
    "primrec len :: nat list => nat where len Nil = 0; len (Cons y ys) = Suc (len ys); "
    "primrec half :: nat => nat where half 0 = 0; half (Suc n) = n; "
    "program put :: nat => nat => bool => (nat list) => box; spec x y p xs . put x y p xs = {term}; end"
)

# schema, a term and its normal form, a term close by and its normal form; `a` stands for `(x < 3)`, which prints as A
A = '(?1 < 3)'
ROWS = [
    ('not_true', 'B (~ True)', '(B False)', 'B (~ p)', '(B (~ ?3))'),
    ('not_false', 'B (~ False)', '(B True)', 'B (~ (x < 3))', '(B (~ (?1 < 3)))'),
    ('not_not', 'B (~ ~ p)', '(B ?3)', 'B (~ ~ ~ p)', '(B (~ ?3))'),
    ('and_true_l', 'B (True & p)', '(B ?3)', 'B (p & x < 3)', '(B (?3 & (?1 < 3)))'),
    ('and_false_l', 'B (False & p)', '(B False)', 'B (x < 3 & p)', '(B ((?1 < 3) & ?3))'),
    ('and_true_r', 'B (p & True)', '(B ?3)', 'B (p & (x < 4))', '(B (?3 & (?1 < 4)))'),
    ('and_false_r', 'B (p & False)', '(B False)', 'B (p & ~ p)', '(B (?3 & (~ ?3)))'),
    ('and_same', 'B (p & p)', '(B ?3)', 'B ((x < 3) & (x < 4))', '(B ((?1 < 3) & (?1 < 4)))'),
    ('or_true_l', 'B (True | p)', '(B True)', 'B (p | x < 3)', '(B (?3 | (?1 < 3)))'),
    ('or_false_l', 'B (False | p)', '(B ?3)', 'B (x < 3 | p)', '(B ((?1 < 3) | ?3))'),
    ('or_true_r', 'B (p | True)', '(B True)', 'B (p | (x < 4))', '(B (?3 | (?1 < 4)))'),
    ('or_false_r', 'B (p | False)', '(B ?3)', 'B (p | ~ p)', '(B (?3 | (~ ?3)))'),
    ('or_same', 'B (p | p)', '(B ?3)', 'B ((x < 3) | (x < 4))', '(B ((?1 < 3) | (?1 < 4)))'),
    ('imp_true_l', 'B (True --> p)', '(B ?3)', 'B (p --> x < 3)', '(B (?3 --> (?1 < 3)))'),
    ('imp_false_l', 'B (False --> p)', '(B True)', 'B (x < 3 --> p)', '(B ((?1 < 3) --> ?3))'),
    ('imp_true_r', 'B (p --> True)', '(B True)', 'B (p --> (x < 4))', '(B (?3 --> (?1 < 4)))'),
    ('imp_false_r', 'B (p --> False)', '(B (~ ?3))', 'B (p --> ~ p)', '(B (?3 --> (~ ?3)))'),
    ('imp_same', 'B (p --> p)', '(B True)', 'B ((x < 3) --> (x < 4))', '(B ((?1 < 3) --> (?1 < 4)))'),
    ('if_true', 'N (if True then x else y)', '(N ?1)', None, None),
    ('if_false', 'N (if False then x else y)', '(N ?2)', None, None),
    ('if_same', 'N (if p then x else x)', '(N ?1)', None, None),
    ('let_sub', 'N (let z = x + y in z * z)', '(N ((?1 + ?2) * (?1 + ?2)))', 'N (let z = x in (let w = y in z + w))', '(N (?1 + ?2))'),
    ('case_con', 'N (case Cons x xs of {Nil => 0, Cons z zs => z})', '(N ?1)',
     'N (case Nil of {Nil => y, Cons z zs => z})', '(N ?2)'),
    ('case_suc', 'N (case Suc x of {0 => 0, Suc z => z})', '(N ?1)',
     'N (case x + y of {0 => 0, Suc z => z})', '(N (case (?1 + ?2) of {0 => 0, Suc !1 => !1}))'),
    ('case_lit', 'N (case 7 of {0 => 0, Suc z => z + x})', '(N (6 + ?1))', 'N (case 0 of {0 => y, Suc z => z})', '(N ?2)'),
    ('unfold_def', 'N (twice x)', '(N (?1 + ?1))', 'N (twice 3)', '(N 6)'),
    ('unfold_con', 'N (len (Cons x Nil))', '(N 1)', 'N (len Nil)', '(N 0)'),
    ('unfold_suc', 'N (half (Suc x))', '(N ?1)', 'N (half (x + y))', '(N (half (?1 + ?2)))'),
    ('unfold_lit', 'N (half 7)', '(N 6)', 'N (half 0)', '(N 0)'),
    ('eq_same', 'B (x = x)', '(B True)', 'B (x = y)', '(B (?1 = ?2))'),
    ('eq_con', 'B (Cons x (Cons y Nil) = Cons y (Cons x Nil))', '(B ((?1 = ?2) & (?2 = ?1)))', 'B (Cons x Nil = Cons y Nil)', '(B (?1 = ?2))'),
    ('eq_con_diff', 'B (Cons x Nil = Nil)', '(B False)', 'B (Nil = Cons x Nil)', '(B False)'),
    ('eq_lit', 'B (3 = 4)', '(B False)', 'B (x = 4)', '(B (?1 = 4))'),
    ('eq_suc', 'B (Suc x = Suc y)', '(B (?1 = ?2))', 'B (Suc x = y)', '(B ((Suc ?1) = ?2))'),
    ('eq_zero_suc', 'B (0 = Suc x)', '(B False)', 'B (Suc x = 0)', '(B False)'),
    ('eq_suc_lit', 'B (Suc x = 7)', '(B (?1 = 6))', 'B (7 = Suc x)', '(B (6 = ?1))'),
    ('eq_true', 'B (p = True)', '(B ?3)', 'B (True = p)', '(B ?3)'),
    ('eq_false', 'B (p = False)', '(B (~ ?3))', 'B (False = p)', '(B (~ ?3))'),
    ('suc_lit', 'N (Suc 18446744073709551614)', '(N 18446744073709551615)', 'N (Suc 18446744073709551615)', '(N (Suc 18446744073709551615))'),
    ('add_lit', 'N (18446744073709551614 + 1)', '(N 18446744073709551615)', 'N (18446744073709551615 + 1)', '(N (18446744073709551615 + 1))'),
    ('sub_lit', 'N (3 - 5)', '(N 0)', 'N (5 - 3)', '(N 2)'),
    ('mul_lit', 'N (4294967295 * 4294967297)', '(N 18446744073709551615)', 'N (4294967296 * 4294967296)', '(N (4294967296 * 4294967296))'),
    ('div_lit', 'N (7 div 2)', '(N 3)', 'N (7 div 0)', '(N 0)'),
    ('mod_lit', 'N (7 mod 2)', '(N 1)', 'N (7 mod 0)', '(N 7)'),
    ('less_same', 'B (x < x)', '(B False)', 'B (x < y)', '(B (?1 < ?2))'),
    ('less_lit', 'B (3 < 4)', '(B True)', 'B (4 < 4)', '(B False)'),
    ('le_same', 'B (x <= x)', '(B True)', 'B (x <= y)', '(B (?1 <= ?2))'),
    ('le_lit', 'B (4 <= 4)', '(B True)', 'B (5 <= 4)', '(B False)'),
]


def cases():
    """Name, words, input and the line that the report has for its one class."""
    for schema, *pairs in ROWS:
        for name, term, form in ((f'schema-{schema}', *pairs[:2]), (f'beside-schema-{schema}', *pairs[2:])):
            if term is not None:
                yield name, ['generate', '--depth', '1'], THEORY.replace('{term}', term).encode(), f'check ((put ?1 ?2 ?3 Nil) = {form})'.encode()
