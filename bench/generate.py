#!/usr/bin/env python3
"""Writes large inputs for `chrrep run` on standard output.

    generate.py rules               a program text of 64 rules of full size, which have names of 10 bytes
    generate.py names               a program text of rules of full size, which have names of 32 bytes
    generate.py clauses             a program text of many short clauses
    generate.py comments            a program text of a few rules and long comments
    generate.py layout              a program text of a few rules and long layout
    generate.py items               a program text with one clause of many items
    generate.py symbols             a program text with one clause of many symbols (it is refused)
    generate.py dominated           a short program with overlaps of up to six free variables
    generate.py near                a short program with an overlap of 47,293 order types, which is nearly the limit
    generate.py ordered             the same with a guard that holds in few of them
    generate.py over                a short program with an overlap of too many order types (it is refused)
    generate.py constants           the same with rules of 2,520 constants beside it (it is refused)
    generate.py copies              a short program of 64 equal rules, with 396 million joint cases
    generate.py choices             62 equal rules of four heads and two more, with two thousand million joint cases
    generate.py guarded             a short program of 64 rules with guards that all differ, with 99 million order types
    generate.py bodies              63 of these rules with bodies, so that the two sides of a case differ and are rested
    generate.py tells N [--show]    a program without rules, and N operations of one atom each
    generate.py wide N [--show]     a program without rules, and N operations of 64 atoms each
    generate.py minimum N           one rule, N operations of one atom each, of which one atom stays, and a `show`
    generate.py renames N           one rule, N operations of one atom each, each of which takes a step, and a `show`
    generate.py paths N             a program with one rule, N operations of one atom each, which all stay, and a `show`
    generate.py exchange N          for `run --replicas 8`: the same program and N operations told to eight replicas in
                                    turn, which exchange what they hold twice round, and each shows its summary and the
                                    last its store

Of the program texts those above `dominated` have at most 65,536 bytes, and nearly as many.
"""

import sys

TEXT_LIMIT = 65536
SYMBOL_LIMIT = 64
RULE_LIMIT = 64
FEW_RULES = ":- chr_constraint a/1, b/1.\na(X), a(X) <=> b(X).\nb(X) \\ b(Y) <=> X < Y | true.\n"


def repeated(start, piece, end=""):
    """As many copies of the piece between start and end as the limit of a text allows."""
    room = TEXT_LIMIT - len(start) - len(end)
    return start + piece * (room // len(piece)) + end


def joined(start, pieces, end):
    """As many of the pieces, joined by commas, between start and end as the limit of a text allows."""
    taken = []
    room = TEXT_LIMIT - len(start) - len(end)
    for piece in pieces:
        room -= len(piece) + 1
        if room < 0:
            break
        taken.append(piece)
    return start + ",".join(taken) + end


def atom(name, terms):
    return f"{name}({','.join(terms)})"


def full_rule(label, heads, light, variables):
    """A rule of four heads, eight comparisons and eight body atoms, all with four arguments."""
    places = [atom(name, variables[4 * k:4 * k + 4]) for k, name in enumerate(heads)]
    guard = ", ".join(f"{variables[2 * k]} =< {variables[2 * k + 1]}" for k in range(8))
    body = ", ".join(atom(light, variables[k:k + 4]) for k in range(8))
    return f"{label} @ {places[0]} \\ {', '.join(places[1:])} <=> {guard} | {body}.\n"


def full_rules(length):
    """As many rules of full size as the limits allow, with names and variables of this length, and a comment to fill
    the text."""
    symbols = [f"s{k}".ljust(length, "x") for k in range(SYMBOL_LIMIT)]
    variables = [f"V{k}".ljust(length, "x") for k in range(16)]
    text = ":- chr_constraint " + ", ".join(f"{name}/4" for name in symbols) + ".\n"
    # the last symbol weighs 1 and the others 100, so that each rule lowers the weight
    for name in symbols[:-1]:
        text += f":- chr_weight {name}/4 = 100.\n"
    for place in range(RULE_LIMIT):
        # no rule has the light symbol in its heads
        heads = [symbols[(place + k) % (SYMBOL_LIMIT - 1)] for k in range(4)]
        rule = full_rule(f"r{place}".ljust(length, "x"), heads, symbols[-1], variables)
        if len(text) + len(rule) > TEXT_LIMIT:
            break
        text += rule
    return text + "%" * (TEXT_LIMIT - len(text))


def constant_rule(place):
    """A rule of 40 constants that no other rule has."""
    constants = iter(range(1000 + 40 * place, 1040 + 40 * place))
    guard = ", ".join(f"V > {next(constants)}" for k in range(8))
    body = ", ".join(f"b({next(constants)},{next(constants)},{next(constants)},{next(constants)})" for k in range(8))
    return f"a(V) <=> {guard} | {body}.\n"


def many_constants():
    """A rule with an overlap of nine variables, and as many rules with constants as there may be."""
    text = ":- chr_constraint p/4, q/1, s/0, a/1, b/4.\n:- chr_weight a/1 = 9.\np(A,B,C,D), q(E) <=> s.\n"
    return text + "".join(constant_rule(place) for place in range(RULE_LIMIT - 1))


def choices():
    """Rules that take four atoms of any values each, and two by which every store comes to one end."""
    text = ":- chr_constraint r/1, t/0.\n:- chr_weight r/1 = 2.\n"
    text += "r(A), r(B), r(C), r(D) <=> t.\n" * (RULE_LIMIT - 2)
    return text + "t \\ r(A) <=> true.\nt \\ t <=> true.\n"


def guarded_rules(count, body):
    """Rules that all remove the one atom, by guards of which no two are the same comparisons."""
    pairs = [(one, other) for one in "ABCD" for other in "ABCD" if one != other]
    guards = [f"{one} {sign} {other}" for sign in ("<", "=<", "=\\=", "=:=", ">", ">=") for one, other in pairs]
    return "".join(f"p(A,B,C) \\ q(D) <=> {guard} | {body}.\n" for guard in guards[:count])


def guarded():
    return ":- chr_constraint p/3, q/1.\n" + guarded_rules(RULE_LIMIT, "true")


def bodies():
    """Such rules that put in what another one removes, whatever its value is."""
    text = ":- chr_constraint p/3, q/1, r/1.\n:- chr_weight q/1 = 2.\n" + guarded_rules(RULE_LIMIT - 1, "r(A)")
    return text + "r(X) <=> true.\n"


def tells(count, atoms):
    yield ":- chr_constraint a/1.\n---\n"
    for number in range(count):
        told = ",".join(f'["a",{number * atoms + k}]' for k in range(atoms))
        yield f'["tell",1,[1,{number}],[{told}]]\n'


def with_rule(clauses, atom, count):
    """A program, an operation for each number below the count, of the atom that it makes, and a `show`."""
    yield clauses + "\n---\n"
    for number in range(count):
        yield f'["tell",1,[1,{number}],[{atom(number)}]]\n'
    yield '["show",1]\n'


def exchange(count, replicas=8):
    """Operations told to replicas in turn, each by an origin of its own, and two rounds of exchanges of neighbours."""
    clauses, path = RULED["paths"]
    yield clauses + "\n---\n"
    for number in range(count):
        replica = number % replicas + 1
        yield f'["tell",{replica},[{replica},{number // replicas}],[{path(number)}]]\n'
    for _ in range(2):
        for replica in range(1, replicas + 1):
            yield f'["sync",{replica},{replica % replicas + 1}]\n'
    for replica in range(1, replicas + 1):
        yield f'["summary",{replica}]\n'
    yield f'["show",{replicas}]\n'


RULED = {
    "minimum": (
        ":- chr_constraint min/1.\nm @ min(X) \\ min(Y) <=> X =< Y | true.",
        lambda number: f'["min",{number * 7919 % 1000003}]',
    ),
    "renames": (
        ":- chr_constraint a/1, b/1.\n:- chr_weight a/1 = 2.\na(X) <=> b(X).",
        lambda number: f'["a",{number}]',
    ),
    "paths": (
        ":- chr_constraint path/3.\npath(X,Y,D) \\ path(X,Y,E) <=> D =< E | true.",
        lambda number: f'["path",{number},{number + 1},1]',
    ),
}

TEXTS = {
    "rules": lambda: full_rules(10),
    "names": lambda: full_rules(32),
    "clauses": lambda: repeated("", ":- use_module(library(chr)).\n"),
    "comments": lambda: repeated(FEW_RULES, "% a comment. With stops, and more\n"),
    "layout": lambda: repeated(FEW_RULES, " \t\r\n"),
    "items": lambda: joined(":- chr_constraint a/0. a <=> ", iter(lambda: "true", None), ".\n"),
    "symbols": lambda: joined(":- chr_constraint ", (f"s{k}/0" for k in range(TEXT_LIMIT)), ".\n"),
    "dominated": lambda: ":- chr_constraint p/2.\np(A,B) \\ p(C,D) <=> A < C | true.\n",
    "near": lambda: ":- chr_constraint p/3, q/1.\np(A,B,C) \\ q(D) <=> true.\n",
    "ordered": lambda: ":- chr_constraint p/3, q/1.\np(A,B,C) \\ q(D) <=> A < B, B < C, C < D | true.\n",
    "over": lambda: ":- chr_constraint p/4, q/1, s/0.\np(A,B,C,D), q(E) <=> s.\n",
    "constants": many_constants,
    "copies": lambda: ":- chr_constraint c/2.\n" + "c(P,Q), c(R,S) <=> c(0,0).\n" * RULE_LIMIT,
    "choices": choices,
    "guarded": guarded,
    "bodies": bodies,
}


def main(words):
    show = ["[\"show\",1]\n"] if words[-1:] == ["--show"] else []
    words = words[:-1] if show else words
    if len(words) == 1 and words[0] in TEXTS and not show:
        sys.stdout.write(TEXTS[words[0]]())
    elif len(words) == 2 and words[0] in ("tells", "wide") and words[1].isdigit():
        sys.stdout.writelines(tells(int(words[1]), 1 if words[0] == "tells" else 64))
        sys.stdout.writelines(show)
    elif len(words) == 2 and words[0] == "exchange" and words[1].isdigit() and not show:
        sys.stdout.writelines(exchange(int(words[1])))
    elif len(words) == 2 and words[0] in RULED and words[1].isdigit() and not show:
        sys.stdout.writelines(with_rule(*RULED[words[0]], int(words[1])))
    else:
        sys.stderr.write(__doc__)
        return 2
    return 0


if __name__ == "__main__":
    sys.exit(main(sys.argv[1:]))
