"""Which tokens can go on with a text of the grammar: a recogniser after Earley, which shares nothing with the program.

A symbol of a rule is a part where GRAMMAR has it, else a kind of token. place(part, tokens) is None where the tokens are a
text of the part, else the number of the words that begin declarations before the first token with which no text goes on.
"""

import re

COUNTED = {'datatype', 'primrec', 'definition', 'program', 'spec', 'outcomes', 'certificate'}
RESERVED = COUNTED | set('theory version begin end where if then else let in case of div mod Suc True False nat bool'.split())

# each part with its sides; BAR is the token |, and nothing the empty side
TEXT = """
Theory: theory word version 1 begin Decls end
Judge: Theory Outcomes
Decls: nothing | Decl Decls
Decl: datatype Params word = Con Cons ; | primrec word :: Funty where Eqn Eqns | definition word :: Funty where Eqn Eqns
Decl: program word :: Funty ; | spec word Words . Term ;
Params: nothing | tyvar | ( tyvar , tyvar Tyvars )
Tyvars: nothing | , tyvar Tyvars
Cons: nothing | BAR Con Cons
Con: word Tyatoms
Tyatoms: nothing | Tyatom Tyatoms
Tyatom: nat | bool | tyvar | word | ( Type )
Type: Tyatom | Tyatom word | ( Type , Type Types ) word
Types: nothing | , Type Types
Funty: Type | Type => Funty
Eqns: nothing | Eqn Eqns
Eqn: word Pats = Term ;
Pats: nothing | Pat Pats
Pat: word | 0 | ( word Words ) | ( Suc Words )
Words: nothing | word Words
Outcomes: outcomes depth number bound number seed number tries number width number begin Items end
Items: nothing | Item Items
Item: answer number Value ; | raised number ;
Value: Vatom | word Vatom Vatoms
Vatoms: nothing | Vatom Vatoms
Vatom: number | True | False | word | ( Value )
Check: Theory Cert
Cert: certificate 1 begin Lines end
Lines: nothing | Line Lines
Line: number Step ;
Step: hyp Context Formula | weak number Formula | cut number number | grow number Context | andI number number | andL number
Step: andR number | impI number Formula | mp number number | allI number | allE number Atom' | exI number Formula Atom'
Step: exE number number | thypI number | thypE number | true Context | false number Formula | split number number Atom'
Step: refl Context Atom' | sym number | trans number number | replace number number Formula | schema Context word Atom'
Step: exhaust number number Numbers | deep Context number Atom' Atoms' | compute Context Atom'
Numbers: nothing | number Numbers
Context: { } | { Tyatom Commas }
Commas: nothing | , Tyatom Commas
Formula: [ Term' ] | ( Formula & Formula ) | ( Formula --> Formula ) | ( ALL Tyatom . Formula ) | ( EX Tyatom . Formula )
Formula: ( THYP Formula ) | ( tested Atom' Atoms' ) | ( deep number Atom' Atoms' )
"""

# the parts of terms, in a theory; those of a certificate have a ' behind their names, and its own variables
TERMS = """
Term: if Term then Term else Term | let Var = Term in Term | case Term of { Branch Branches } | Imp
Branches: nothing | , Branch Branches
Branch: 0 => Term | Suc Var => Term | word Vars => Term
Vars: nothing | Var Vars
Imp: Or | Or --> Imp
Or: And | And BAR Or
And: Not | Not & And
Not: ~ Not | Cmp
Cmp: Add | Add = Add | Add < Add | Add <= Add
Add: Mul | Add + Mul | Add - Mul
Mul: App | Mul * App | Mul div App | Mul mod App
App: Atom | word Atom Atoms | Suc Atom Atoms
Atoms: nothing | Atom Atoms
Atom: number | True | False | word | ( Term )
"""
IN_THEORY = 'Var: word'
IN_CERTIFICATE = "Var': ! number\nAtom': ? number | ! number"


def in_certificate(text):
    """The same parts with a ' behind their names."""
    parts = {line.split(': ', 1)[0] for line in text.strip().splitlines()} | {'Var'}
    return re.sub(r'\b[A-Z][a-z]*\b', lambda name: name[0] + "'" * (name[0] in parts), text)


def rules():
    grammar = {}
    for line in '\n'.join([TEXT, TERMS, IN_THEORY, in_certificate(TERMS), IN_CERTIFICATE]).strip().splitlines():
        if not line:
            continue
        part, sides = line.split(': ', 1)
        for side in sides.split(' | '):
            symbols = [] if side == 'nothing' else side.replace('BAR', '|').split()
            grammar.setdefault(part, []).append(tuple(symbols))
    return grammar


GRAMMAR = rules()


def fits(symbol, token):
    """The token is of the kind that the symbol names: a class of tokens, a number by its value, or itself."""
    if symbol == 'word':
        return token[0].isalpha() and token not in RESERVED
    if symbol == 'tyvar':
        return token[0] == "'"
    if symbol == 'number':
        return token.isdigit()
    if symbol.isdigit():
        return token.isdigit() and int(token) == int(symbol)
    return symbol == token


def closed(states, charts):
    """The states with all that follow before the next token. A state is a part, a side of it, how much of it is read, and where
    it began; charts has the states of the places before, and the last of it grows here."""
    at = len(charts)
    charts = [*charts, states]
    todo = list(states)
    while todo:
        part, side, dot, start = todo.pop()
        if dot == len(side):
            found = {(p, s, d + 1, b) for p, s, d, b in charts[start] if d < len(s) and s[d] == part}
        elif side[dot] in GRAMMAR:
            found = {(side[dot], rule, 0, at) for rule in GRAMMAR[side[dot]]}
            if any(p == side[dot] and d == len(s) and b == at for p, s, d, b in states):
                found.add((part, side, dot + 1, start))
        else:
            found = set()
        todo.extend(found - states)
        states |= found
    return states


def place(part, tokens):
    charts = [closed({(part, side, 0, 0) for side in GRAMMAR[part]}, [])]
    for index, token in enumerate(tokens):
        taken = {(p, s, d + 1, b) for p, s, d, b in charts[-1] if d < len(s) and s[d] not in GRAMMAR and fits(s[d], token)}
        if not taken:
            return sum(t in COUNTED for t in tokens[:index])
        charts.append(closed(taken, charts))
    if any(p == part and d == len(s) and b == 0 for p, s, d, b in charts[-1]):
        return None
    return sum(t in COUNTED for t in tokens)
