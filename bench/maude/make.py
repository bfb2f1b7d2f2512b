#!/usr/bin/env python3
"""Writes three of bench/src/list_run.rs's loads, which are first-order, as Maude modules: the same rules, and plans of the same shape. Each place
where a rule matches has a leaf of its own (C0, C1 and so on), since equal terms of a plan are one to Maude, and it would rewrite all at once.

    python3 bench/maude/make.py LOAD KIND > load.maude     # moved-below, renamed or last-other; eq or rl

With eq the rules are equations, for Maude's reduce: innermost, as fast as it goes. With rl they are rules, for its rewrite: from the root, as
here. `loop(N)` makes and reduces the plan N times; a rewrite command is for one plan.
"""
import sys

A, B, V = "A", "B", "V"


def over(terms):
    """As second's Term::over: eight at a time, until one is left."""
    while len(terms) > 1:
        groups = [terms[at:at + 8] for at in range(0, len(terms), 8)]
        terms = [f"w({', '.join(group)})" for group in groups]
    return terms[0]


def chain(name, times, end):
    return f"{name}(" * times + end + ")" * times


def tree(nodes, leaf):
    """As bench's tree: two arguments a node, but for one where that does not come out."""
    if nodes == 1:
        return leaf
    if nodes == 2:
        return f"t({leaf})"
    first = (nodes - 1) // 2
    return f"t({tree(first, leaf)}, {tree(nodes - 1 - first, leaf)})"


def moved():
    places = over([f"plus({chain('suc', 13, f'C{place}')}, {A})" for place in range(77)])
    # Down to depth 64; the deepest place is 4 + 14 levels.
    return ["plus(suc(X), Y) -> plus(X, suc(Y))"], chain("n", 46, places)


def renamed():
    return ["n(X) -> suc(X)"], over([f"n(C{place})" for place in range(1000)])


def last():
    idle = [f"r{number}(q{number}(X), Y) -> X" for number in range(1, 32)]
    plan = over([f"suc2({A}, {tree(28, f'C{place}')})" for place in range(100)])
    for _ in range(64 - 11 - 4):
        plan = f"plus({plan}, {V})"
    return [*idle, f"suc2({A}, X) -> suc2({B}, X)"], plan


LOADS = {"moved-below": moved, "renamed": renamed, "last-other": last}


def main():
    load, kind = sys.argv[1:]
    rules, plan = LOADS[load]()
    begin, end = ("fmod", "endfm") if kind == "eq" else ("mod", "endm")
    sign = {"eq": "=", "rl": "=>"}[kind]
    print(f"{begin} LOAD is\n  protecting NAT .\n  sort T .\n  ops {A} {B} {V} plan : -> T .\n  ops n suc : T -> T .\n  op t : T -> T .")
    print("  op t : T T -> T .\n  ops plus suc2 second : T T -> T .\n  op loop : Nat -> T .")
    for count in range(1, 9):
        print(f"  op w : {'T ' * count}-> T .")
    if load == "last-other":
        print("  ops " + " ".join(f"r{n}" for n in range(1, 32)) + " : T T -> T .\n  ops " + " ".join(f"q{n}" for n in range(1, 32)) + " : T -> T .")
    print("  ops " + " ".join(f"C{place}" for place in range(1000)) + " : -> T .")
    print("  vars X Y : T .\n  var N : Nat .")
    for rule in rules:
        left, right = rule.split(" -> ")
        print(f"  {kind} {left} {sign} {right} .")
    print(f"  eq plan = {plan} .\n  eq second(X, Y) = Y .\n  eq loop(0) = A .\n  eq loop(s N) = second(plan, loop(N)) .\n{end}")


if __name__ == "__main__":
    main()
