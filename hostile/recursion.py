#!/usr/bin/env python3
"""Lists the functions of the sources whose calls may lead back to themselves, so that their depth could grow with an input.

    hostile/recursion.py

It goes by names: a call of a plain name is one of a function of that name in the crate or below it; a call on `self` is one of
the type's own methods, else of a trait's; a call on a field or a parameter is one of its type's methods; a call on anything else
may be one of any method of that name of another type, in the crate or below it. So it may name too many; it names too few only
where a local value of a type calls a method of that same type that leads back, or a function is passed by name. Ends with 1 where it names one.
"""
import collections
import pathlib
import re
import sys

ROOT = pathlib.Path(__file__).resolve().parent.parent
FUNCTION = re.compile(r"( *)(?:pub(?:\([^)]*\))? )?(?:const )?fn (\w+)")
CALL = re.compile(r"((?:[\w)\]?>]+(?:\.|::))*)\b([a-z_]\w*)(?:::<[^()]*?>)?\(")

PARAMETER = re.compile(r"(\w+): &?(?:mut )?\[?(?:Vec<)?(\w+)")

Function = collections.namedtuple("Function", "crate place line name type trait given body")

# Calls on a value whose type isn't told beside it, which were read: each is one of a list of std, or of a chain of entries.
READ = {("lvs_dests", "widen", "reserve"): None, ("lvs_entries", "make_room", "reserve"): "Chain"}


def below():
    """For each crate those that it stands on, itself among them."""
    direct = {}
    for line in (ROOT / "crates.txt").read_text(encoding="utf-8").splitlines():
        head, colon, names = line.partition(":")
        if colon:
            direct[head.split()[0]] = names.split()

    def reach(crate):
        return {crate}.union(*(reach(it) for it in direct.get(crate, ())))

    return {crate: reach(crate) for crate in direct}


def functions():
    """Each function with its body, without comments and contracts."""
    for path in sorted(ROOT.glob("crates/*/src/**/*.rt")):
        if "tests" in path.stem or "tests" in path.parts:
            continue
        kind, trait = None, None
        lines = [re.sub(r"//.*", "", line) for line in path.read_text(encoding="utf-8").splitlines()]
        for number, line in enumerate(lines):
            if line.startswith("}"):
                kind, trait = None, None
            found = re.match(r"impl(?:<.*?>)? (?:(.+) for )?(\w+)", line)
            if found:
                kind, trait = found.group(2), found.group(1)
            found = FUNCTION.match(line)
            if found:
                end = found.group(1) + "}"
                rest = lines[number + 1 :]
                size = next((at for at, it in enumerate(rest) if it.startswith(end) or FUNCTION.match(it)), 0)
                body = [it for it in rest[:size] if not it.strip().startswith(("ensures", "requires", "ghost"))]
                crate, given = path.parts[len(ROOT.parts) + 1], "\n".join(lines[number : number + 9]).partition("fn ")[2].partition(") ")[0]
                yield Function(crate, path.relative_to(ROOT), number + 1, found.group(2), kind, trait, given, "\n".join(body) + line.partition("{")[2])


def fields():
    """For each type of a crate the first name in the type of each field."""
    held = collections.defaultdict(dict)
    for path in ROOT.glob("crates/*/src/**/*.rt"):
        for kind, body in re.findall(r"^(?:pub(?:\([^)]*\))? )?struct (\w+)[^{;]*\{(.*?)^\}", path.read_text(encoding="utf-8"), re.M | re.S):
            for field, of in re.findall(r"^    (?:pub(?:\([^)]*\))? )?(\w+): &?(?:'\w+ )?(?:mut )?(\w+)", body, re.M):
                held[path.parts[len(ROOT.parts) + 1], kind][field] = of
    return held


def calls(function, named, reach, held):
    """The functions that a body may call."""
    for before, name in CALL.findall(function.body):
        known = [it for it in named.get(name, ()) if it.crate in reach.get(function.crate, ())]
        own = [it for it in known if it.type and (it.type, it.crate) == (function.type, function.crate)]
        if before in ("self.", "Self::"):
            plain = [it for it in own if not it.trait]
            yield from plain or own or [it for it in known if it.trait]
        elif before.endswith("."):
            receiver = before[:-1]
            of = dict(PARAMETER.findall(function.given)).get(receiver)
            if receiver.startswith("self."):
                of = held.get((function.crate, function.type), {}).get(receiver.removeprefix("self."))
            of = READ.get((function.crate, function.name, name), of)
            others = [it for it in known if it.type and (it.type, it.crate) != (function.type, function.crate)]
            if (function.crate, function.name, name) in READ or of is not None:
                yield from (it for it in known if it.type == of and of is not None)
            else:
                yield from others
        elif re.search(r"\b[A-Z]\w*::$", before):
            kind = before.split("::")[-2]
            yield from own if kind == "Self" else (it for it in known if it.type == kind or len(kind) == 1 and it.trait)
        else:
            module = before.split("::")[-2] if "::" in before else ""
            inside = [it for it in known if not it.type and it.place.stem == module]
            yield from inside or (it for it in known if not it.type)


def circles(graph):
    """The strongly connected parts of a graph that have an edge inside."""
    index, low, stack, found = {}, {}, [], []

    def visit(node):
        index[node] = low[node] = len(index)
        stack.append(node)
        for other in graph[node]:
            if other not in index:
                visit(other)
            if other in stack:
                low[node] = min(low[node], low[other])
        if low[node] == index[node]:
            part = stack[stack.index(node) :]
            del stack[stack.index(node) :]
            if len(part) > 1 or node in graph[node]:
                found.append(part)

    sys.setrecursionlimit(10000)
    for node in graph:
        if node not in index:
            visit(node)
    return found


def main():
    every = list(functions())
    named = collections.defaultdict(list)
    for function in every:
        named[function.name].append(function)
    reach, held = below(), fields()
    graph = {function: set(calls(function, named, reach, held)) for function in every}
    found = circles(graph)
    for part in found:
        print("\n".join("%s:%d %s" % (it.place, it.line, it.name) for it in part) + "\n")
    print("recursion: %d functions, %d circles of calls" % (len(every), len(found)))
    return 1 if found else 0


if __name__ == "__main__":
    sys.exit(main())
