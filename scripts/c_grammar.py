"""The grammar of docs/C.md as productions, and the first token at which a program leaves it.

`first_refused` is Earley's recogniser. It shares nothing with the crates, which read one token
ahead, and it knows no limit of nodes. scripts/compare_c.py uses it.
"""

import re

KEYWORDS = "static int char void const if else while do for break continue return sizeof".split()
# The operators between operands, those first that bind least.
LEVELS = ["||", "&&", "|", "^", "&", "== !=", "< <= > >=", "<< >>", "+ -", "* / %"]
ASSIGNMENTS = ["=", "+=", "-=", "*=", "/=", "%="]

# Each nonterminal with its choices. A word that is no key is a sign.
GRAMMAR = {
    "start": ["unit END"],
    "unit": ["", "unit external"],
    "external": ["internal result NAME rest"],
    "internal": ["", "static"],
    "result": ["int", "char", "void"],
    "rest": [
        ";",
        "= constant ;",
        "[ constant ] ;",
        "[ constant ] = values ;",
        "( params ) ;",
        "( params ) { decls stmts }",
    ],
    "values": ["TEXT", "{ constants }"],
    "constants": ["constant", "constants , constant"],
    "constant": ["NUMBER", "- NUMBER", "CHAR"],
    "params": ["", "void", "param_list"],
    "param_list": ["param", "param_list , param"],
    "param": ["base pointer NAME"],
    "pointer": ["", "*"],
    "base": ["int", "char", "const char"],
    "decls": ["", "decls decl"],
    "decl": ["base items ;"],
    "items": ["item", "items , item"],
    "item": ["pointer NAME", "pointer NAME [ constant ]", "pointer NAME = expr"],
    "stmt_in_loop": ["break ;", "continue ;"],
    "given": ["", "expr"],
    "expr": ["choice", *(f"place {sign} expr" for sign in ASSIGNMENTS)],
    "choice": ["level_0", "level_0 ? expr : choice"],
    "unary": [
        "postfix",
        "stepped ++",
        "stepped --",
        "- unary",
        "! unary",
        "~ unary",
        "* unary",
        "& postfix [ expr ]",
        "++ place",
        "-- place",
        "( base pointer ) unary",
        "sizeof ( NAME )",
        "sizeof ( base )",
    ],
    "postfix": [
        "NAME",
        "NUMBER",
        "CHAR",
        "TEXT",
        "( expr )",
        "NAME ( )",
        "NAME ( arguments )",
        "postfix [ expr ]",
    ],
    "stepped": ["NAME", "postfix [ expr ]"],
    "place": ["NAME", "postfix [ expr ]", "* unary"],
    "arguments": ["expr", "arguments , expr"],
}
for end in ["", "_in_loop"]:
    GRAMMAR[f"stmts{end}"] = ["", f"stmts{end} stmt{end}"]
    GRAMMAR[f"stmt{end}"] = GRAMMAR.get(f"stmt{end}", []) + [
        ";",
        "expr ;",
        f"{{ stmts{end} }}",
        f"if ( expr ) stmt{end}",
        f"if ( expr ) stmt{end} else stmt{end}",
        "while ( expr ) stmt_in_loop",
        "do stmt_in_loop while ( expr ) ;",
        "for ( given ; given ; given ) stmt_in_loop",
        "return given ;",
    ]
for number, signs in enumerate(LEVELS):
    above = f"level_{number + 1}" if number + 1 < len(LEVELS) else "unary"
    GRAMMAR[f"level_{number}"] = [above, *(f"level_{number} {sign} {above}" for sign in signs.split())]

CHOICES = {name: [choice.split() for choice in choices] for name, choices in GRAMMAR.items()}


def empty_names():
    """The nonterminals that may be nothing."""
    found = set()
    while True:
        more = {name for name, choices in CHOICES.items() if any(found.issuperset(one) for one in choices)}
        if more == found:
            return found
        found = more


EMPTY = empty_names()


def sign_of(token):
    """What a token is in the grammar."""
    if token in KEYWORDS:
        return token
    if re.match(r"[A-Za-z_]", token):
        return "NAME"
    if token[0].isdigit():
        return "NUMBER"
    return {"'": "CHAR", '"': "TEXT"}.get(token[0], token)


def closed(items, sets):
    """The items with all that follow from them before the next token is seen."""
    found, work, place = set(items), list(items), len(sets)
    while work:
        name, choice, dot, start = work.pop()
        if dot == len(choice):
            before = list(found) if start == place else sets[start]
            more = [(n, c, d + 1, s) for n, c, d, s in before if d < len(c) and c[d] == name]
        elif choice[dot] in CHOICES:
            more = [(choice[dot], tuple(one), 0, place) for one in CHOICES[choice[dot]]]
            if choice[dot] in EMPTY:
                more.append((name, choice, dot + 1, start))
        else:
            more = []
        for item in more:
            if item not in found:
                found.add(item)
                work.append(item)
    return found


def first_refused(tokens):
    """The place of the first token that ends no beginning of a program, its end counted, or None."""
    sets = []
    items = {("start", ("unit", "END"), 0, 0)}
    for place, sign in enumerate([*map(sign_of, tokens), "END"]):
        sets.append(closed(items, sets))
        items = {(n, c, d + 1, s) for n, c, d, s in sets[-1] if d < len(c) and c[d] == sign}
        if not items:
            return place
    return None
