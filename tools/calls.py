#!/usr/bin/env python3
"""Which functions can reach themselves:  python3 tools/calls.py [--stack] [--docs] [ROOT]

The call graph is read from what the kit makes of every crate of crates.txt for its proofs (`rt check --generated`): the code of each function,
private ones too. It prints each circle of calls, with the measure that falls at each of its calls as the proof states it (the folder `+..` that the
kit asks for), as a table. The kit's own libraries are not followed: a function of theirs calls what was handed to it, which counts as called by
whoever handed it on, and nothing else of the crates.

    --stack    also the bytes of stack that one level takes, from the machine code of the library and of the programs, as tools/build.sh makes it
               (tools/stacks.py); no call may lie on a circle there that lies on none in the graph
    --docs     the table must be that of docs/FIGURES.md
    --proofs   alone: only that the folders `+..` have the functions and the measures of that table, none of which has to be a loop by its name, in
               a moment and without the kit. The gate runs this; the kit refuses a recursion without such a folder, but for one down a type that
               holds itself or one that is proved by hand, of which it lets none pass

The exit status is 1 if a function that has to be a loop (`have_to_be_loops`) reaches a circle: the way is told. It is 1 too if with --docs or
--proofs the document has another table; 2 if one of LOOPS is gone, if circles and the proofs' folders are not one to one, or if anything is not as
this tool knows it, so that a call might be missed.
"""

import collections
import os
import re
import subprocess
import sys
import tempfile

import stacks
from graphs import Wrong, circles, expect, reached, way_round

ROOT = os.path.join(os.path.dirname(os.path.abspath(__file__)), "..")
DOCUMENT = os.path.join("docs", "FIGURES.md")
MARK, END = "<!-- calls -->\n", "<!-- end -->"

# What follows a name to the next: the one function that does.
STEPS = ("environment::scope::Scope::step",)
# What these reach must reach itself nowhere: that step, the alias end, the tables of ends, the lookups, who looks a service up, and the last name.
LOOPS = (*STEPS, "environment::scope::Scope::alias_end", "environment::scope::Scope::find_ends", "environment::end_of", "environment::names_crossed",
         "environment::as_func", "environment::as_service", "syntax::actor::Resolver::chase_service", "passed::alias::last_crossed")
# And whatever else goes from name to definition, but for the comparison of trees.
ALL_OF, BUT = ("environment::", "analysis::", "inhabitants::"), "environment::merge::"


# What the kit makes of a crate: for a function the module PATH/Code, with a line for each function that it names; for functions that reach
# themselves one module PATH/+NAME/Code with the lines of all, and a module for each below it, which names those of the folder that it calls by their
# keys. What is handed on as a method of an impl, a closure's too, stands in quotes, in PATH/Code/Mir where that is there, and of the function's own
# impl there alone.

LINE = re.compile(r"^pub calls-(\S+) :", re.MULTILINE)
USE = re.compile(r"^use Rattle\.(\S+)", re.MULTILINE)
HANDED = re.compile(r'"([^"\s]+)"')

# A trait's own body of a method, which calls none of the methods of the impl that it is handed: the method that the kit makes of it calls nothing else.
OWN_BODY = "core::iter::base::Iterator::size_hint"

Function = collections.namedtuple("Function", "named")


def handed_on(crate, text):
    """The functions of the crate that a text has in quotes."""
    return {one for one in HANDED.findall(text) if one.startswith(f"{crate}::")}


def members_of(crate, module, folder, codes, outside):
    """The functions of a folder `+..`, each with those of the folder that it names. `outside` has those that they name elsewhere."""
    found = {}
    for path, text in codes.items():
        if path.startswith(f"{folder}/Code/+"):
            name = "::".join([crate, *module, *path.removeprefix(f"{folder}/Code/+").split("-")])
            keys = [use.removeprefix(f"{crate}.specs.contracts.").removesuffix(".Key") for use in USE.findall(text) if use.endswith(".Key")]
            found[name] = {"::".join([crate, *key.split(".")]) for key in keys} | handed_on(crate, text) - outside
    expect(found, f"{crate}: {folder} has no functions")
    for name, named in found.items():
        expect(named <= set(found), f"{name} has calls that this tool does not know: {', '.join(sorted(named - set(found)))}")
    expect(circles(found) == [sorted(found)], f"{crate}: {folder} is no circle by the calls that are read")
    return found


def functions_of(codes, crate, known, crates):
    """The functions of a crate, from its modules. `known` has those of the crates below."""
    found, passed_on = {}, {}
    for path, text in codes.items():
        folder = path.removesuffix("/Code")
        if folder == path:
            continue  # a part of another module
        *module, last = folder.split("/")
        named = frozenset(LINE.findall(text))
        calls = text.count("\npub calls-")
        expect(calls == len(named), f"{crate}: {folder} has {calls} calls, and {len(named)} are read")
        within = [use for use in USE.findall(text) if use.startswith(f"{crate}.proofs.") and "+" in use.split(".")[-2] and use.endswith(".Code")]
        if last.startswith("+"):
            for name, others in members_of(crate, module, folder, codes, named).items():
                expect(name not in found, f"{name} is there twice")
                found[name] = Function(named | frozenset(others))
        elif within and not named:
            passed_on["::".join([crate, *module, last])] = within
        else:
            name = "::".join([crate, *module, last])
            expect(name not in found, f"{name} is there twice")
            made = named - {f"{crate}::Destruct++none::drop"} == {OWN_BODY}
            found[name] = Function(named if made else named | handed_on(crate, text + codes.get(f"{path}/Mir", "")))
    expect(found or not codes, f"{crate} has modules and no functions")
    for name, folders in passed_on.items():
        expect(name in found, f"{name} is said to be in {', '.join(folders)}, and is not")
    for name, function in found.items():
        for callee in sorted(function.named):
            there = callee in found or callee in known or callee.split("::")[0] not in crates
            expect(there, f"{name} calls {callee}, which is defined nowhere")
    return found


# The crates.

def crates_of(root):
    """The crates of crates.txt in its order, each with the words that it has: what it stands on, the kit's libraries too."""
    with open(os.path.join(root, "crates.txt"), encoding="utf-8") as file:
        lines = [line.split("#")[0].partition(":") for line in file]
    found = {head.split()[0]: below.split() for head, _, below in lines if head.strip()}
    for name in found:
        expect(os.path.isdir(os.path.join(root, "crates", name)), f"crates/{name} is not there")
    return found


def generated(root, crate):
    """The modules of code that the kit makes of a crate, by their paths. What is below the crate has to be proved."""
    with tempfile.TemporaryDirectory() as folder:
        made = os.path.join(folder, "made")
        done = subprocess.run(["rt", "check", "--generated", made], cwd=os.path.join(root, "crates", crate), capture_output=True, encoding="utf-8")
        written = re.search(r"^generated=[1-9][0-9]*$", done.stdout, re.MULTILINE)  # also where a proof is missing
        expect(written and done.returncode in (0, 1), f"`rt check --generated` of {crate} failed:\n{(done.stdout + done.stderr).strip()}")
        top, found = os.path.join(made, f"Rattle-{crate}-proofs"), {}
        for path, _, names in os.walk(top):
            for name in names:
                place = os.path.relpath(os.path.join(path, name), top).removesuffix(".antt")
                if "Code" in place.split(os.sep):
                    with open(os.path.join(path, name), encoding="utf-8") as file:
                        found[place.replace(os.sep, "/")] = file.read()
        return found


def source_files(root, crate):
    """Each file of a crate with the path of its module."""
    folder = os.path.join(root, "crates", crate, "src")
    for path, _, names in os.walk(folder):
        for name in names:
            if name.endswith(".rt"):
                module = os.path.relpath(os.path.join(path, name[:-3]), folder).split(os.sep)
                yield os.path.join(path, name), [crate] + [part for part in module if module not in (["lib"], ["main"])]


# What the kit adds to the functions of the sources: what a derive, a closure, a trait's own method, the end of a value's life and the start of `main`
# come to.
DERIVED = "Clone::clone|Default::default|PartialEq::eq|PartialOrd::partial_cmp|Ord::cmp|Debug::fmt"
ADDED = re.compile(rf"::(fn::.*|\S*\+\S*::\w+|\w*({DERIVED}|Iterator::size_hint|Drop::drop)|main\+\w+)$")


# An `impl`, to the brace that closes it on its line or below its first word; the type that has its methods; types and functions.
IMPL = re.compile(r"^( *)impl\b([^{]*)\{(?:[^\n]*\}$|.*?^\1\})", re.MULTILINE | re.DOTALL)
OF_TYPE = re.compile(r"(\w+)\s*(<.*>)?\s*$", re.DOTALL)
TYPE, FN = re.compile(r"\b(?:struct|enum) (\w+)"), re.compile(r"\bfn (\w+)")


def functions_in(texts):
    """The functions of the sources, each by module and name: a method's module is that of its type, wherever in the crate the `impl` is."""
    homes, found = collections.defaultdict(set), collections.Counter()
    for module, text in texts.items():
        for name in TYPE.findall(text):
            homes[name].add(module)
    for module, text in texts.items():
        for block in IMPL.finditer(text):
            name = OF_TYPE.search(block[2].split(" for ")[-1])[1]
            home = {module} if module in homes[name] or not homes[name] else homes[name]
            expect(len(home) == 1, f"{module} has methods of {name}, of which there are several: {', '.join(sorted(home))}")
            found.update((min(home), one) for one in FN.findall(block[0]))
        found.update((module, one) for one in FN.findall(IMPL.sub("", text)))
    return found


def check_whole(root, crate, functions):
    """The graph has the functions of the sources: in each module as many of each name, methods of all types together."""
    texts, there = {}, collections.Counter()
    for path, parts in source_files(root, crate):
        with open(path, encoding="utf-8") as file:
            texts["::".join(parts)] = re.sub("//.*", "", file.read())
    sources = functions_in(texts)
    for function in functions:
        module, _, name = function.rpartition("::")
        one = module if module in texts else module.rpartition("::")[0], name
        if one in sources or not ADDED.search(function):
            there[one] += 1
    for one in sorted(sources | there):
        expect(sources[one] == there[one], f"{'::'.join(one)}: the sources have {sources[one]} and what the kit makes has {there[one]}")


def has_to_be_loop(name):
    """By its name alone: one of LOOPS, or of ALL_OF."""
    return name in LOOPS or name.startswith(ALL_OF) and not name.startswith(BUT)


def have_to_be_loops(graph):
    """The functions that must reach no circle: by their names, whoever calls one of STEPS, and a circle from which one is reached through others."""
    again = {name for members in circles(graph) if not reached(graph, members).isdisjoint(STEPS) for name in members}
    callers = {name for name in graph if not graph[name].isdisjoint(STEPS)}
    return again | callers | set(filter(has_to_be_loop, graph))


class Graph:
    """Of all crates together: what each function names, the kit's functions, which name nothing here, and those that the library has."""

    def __init__(self):
        self.functions, self.library, self.kit = {}, set(), set()

    def add(self, crate, found):
        self.functions.update(found)
        self.kit |= {callee for one in found.values() for callee in one.named} - set(self.functions)
        if crate == "exports":
            self.library = reached(self.calls(), set(found)) - self.kit

    def calls(self):
        return {name: function.named for name, function in self.functions.items()} | {name: frozenset() for name in self.kit}


def read(root, codes_of):
    """The graph, and the way from a function that has to be a loop into a circle, if there is one. A crate calls what is below it alone, so each
    is judged before what stands on it is read, for which the kit would have it proved."""
    graph, crates = Graph(), crates_of(root)
    for crate in crates:
        found = functions_of(codes_of(root, crate), crate, graph.functions, set(crates))
        check_whole(root, crate, found)
        graph.add(crate, found)
        path = way_round(graph.calls(), have_to_be_loops(graph.calls()))
        if path:
            return graph, path
        check_proved(root, circles(graph.calls()))
    for name in LOOPS:
        expect(name in graph.functions, f"{name} has to be a loop and is not there: LOOPS in tools/calls.py has the names")
    return graph, None


# What falls at each call: the measures in the proofs.

DECREASES = re.compile(r"^decreases-(\w+(?:::\w+)*)(?: g)? l =((?: .*|\n +\S.*)+)$", re.MULTILINE)
STATED = re.compile(r"^(?:\w+ )*decreases-(\w+(?:::\w+)*)(?![-\w:])", re.MULTILINE)
COMMENT = re.compile(r"\{-.*?-\}", re.DOTALL)


def folders(root):
    """Each folder of a proof of a circle, by the functions' names: those that a measure is stated for, but for those of loops."""
    found = {}
    for crate in crates_of(root):
        top = os.path.join(root, "crates", crate, "proofs")
        for path, names, files in os.walk(top):
            expect("Proof.antt" not in files, f"{path} has a proof by hand, which may be of a recursion")
            for name in names:
                if name.startswith("+"):
                    file = os.path.join(path, name, "Invariants.antt")
                    module = [part for part in os.path.relpath(path, top).split(os.sep) if part != "."]
                    members = tuple("::".join([crate, *module, member]) for member in sorted(stated(file)))
                    expect(members, f"{os.path.relpath(file, root)} states no measure of a function")
                    expect(members not in found, f"{', '.join(members)} have two folders +")
                    found[members] = file
    return found


def stated(path):
    """The measures of a file, by the functions' names. A loop's is named after the loop too, `decreases-FUNCTION-loop-i` or `decreases-loop-i`."""
    expect(os.path.exists(path), f"{path} is not there")
    with open(path, encoding="utf-8") as file:
        text = COMMENT.sub("", file.read())
    found = {}
    for name, body in DECREASES.findall(text):
        expect(name not in found, f"{path}: decreases-{name} is stated twice")
        found[name] = body
    for name in STATED.findall(text):
        expect(name in found, f"{path}: decreases-{name} is stated as this tool does not know")
    return found


def in_words(name, body):
    """A measure, with the names of parameters and fields alone: `l.n` is `n`; `l.rows.now`, what a slice holds, `rows`; `l.self.now.n` `self.n`."""
    text = re.sub(r"\bl\.(\w+(?:\.\w+)*)", lambda path: re.sub(r"\.now\b", "", path[1]), " ".join(body.split()))
    expect(not re.search(r"\bl\b", text), f"{name}: the measure has what is no parameter: {' '.join(body.split())}")
    return text


def measures(members, path):
    """What falls at each call of each member."""
    found = stated(path)
    for name in members:
        yield in_words(name, found[max((member for member in found if name.endswith(f"::{member}")), key=len)])


def check_proved(root, found):
    proofs = folders(root)
    for members in found:
        expect(tuple(members) in proofs, f"no folder + has a proof of the circle of calls {', '.join(members)}")


def fallen(root, found):
    """The measures of each circle. Circles and folders must be one to one: the same list by two witnesses."""
    proofs = folders(root)
    check_proved(root, found)
    for members in proofs:
        expect(list(members) in found, f"{os.path.relpath(proofs[members], root)} is there, and no circle of calls {', '.join(members)}")
    return [list(measures(members, proofs[tuple(members)])) for members in found]


# The table.

HEAD = ["reaches itself", "of", "at each call falls", "bytes a level"]


def rows(graph, found, falls, most):
    for members, measured, level in zip(found, falls, most):
        for name, measure in zip(members, measured):
            of = "the library" if name in graph.library else "programs alone"
            yield [f"`{name}`" if name == members[0] else f"with `{name}`", of, f"`{measure}`", f"{level}" if name == members[0] else ""]


def table(lines):
    return "".join(f"| {' | '.join(line)} |\n".replace("|  |", "| |") for line in lines).replace("\n", f"\n|{'---|' * len(lines[0])}\n", 1)


def stored(root):
    """The table of the document, in columns."""
    with open(os.path.join(root, DOCUMENT), encoding="utf-8") as file:
        text = file.read()
    expect(text.count(MARK) == 1, f"{DOCUMENT} has no place for the table, {MARK.strip()}")
    lines = text.split(MARK)[1].split(END)[0].splitlines()
    return [[cell.strip() for cell in line.strip("|").split("|")] for number, line in enumerate(lines) if number != 1]


def tell_proofs(root):
    """Whether the folders `+..` are those of the document's table, and none is of a function that has to be a loop, as the exit status."""
    proofs = folders(root)
    for name in filter(has_to_be_loop, (name for members in proofs for name in members)):
        print(f"{name} has to be a loop, and has a proof of a function that reaches itself")
        return 1
    falls = [measures(members, proofs[members]) for members in sorted(proofs)]
    lines = [[line[0], line[2]] for line in rows(Graph(), sorted(proofs), falls, [0] * len(proofs))]
    if lines != [[line[0], line[2]] for line in stored(root)[1:]]:
        print(table([[HEAD[0], HEAD[2]], *lines]), end=f"\n{DOCUMENT} has another table\n")
        return 1
    return 0


def tell(root, options):
    """Prints what was found, and answers the exit status."""
    graph, path = read(root, generated)
    if path:
        print(f"{path[0]} has to be a loop, as what it calls, and reaches a function that reaches itself:\n{' -> '.join(path)}")
        return 1
    calls = graph.calls()
    found, loops = circles(calls), have_to_be_loops(calls)
    falls, most, columns = fallen(root, found), [0] * len(found), len(HEAD) - 1
    members, others = sum(map(len, found)), reached(calls, loops) - loops
    said = [f"{len(calls)} functions, {len(graph.kit)} of them the kit's; {len(found)} circles of calls, with {members} functions, each with its proof",
            f"{len(loops)} functions have to be loops, and reach {len(others)} others: none of them is on a circle"]
    if "--stack" in options:
        paths, columns = stacks.objects(root, crates_of(root)), len(HEAD)
        most, count = stacks.stacks(root, paths, set(crates_of(root)), found)
        said.append(f"{count} functions in the machine code of {', '.join(map(os.path.basename, paths))}: no other circle")
    lines = [line[:columns] for line in [HEAD, *rows(graph, found, falls, most)]]
    differs = "--docs" in options and [line[:columns] for line in stored(root)] != lines
    print("\n".join(said), table(lines), sep="\n\n", end=f"\n{DOCUMENT} has another table\n" if differs else "")
    return 1 if differs else 0


def main(arguments):
    options = {argument for argument in arguments if argument.startswith("--")}
    roots = [argument for argument in arguments if argument not in options]
    if options - {"--stack", "--docs"} and options != {"--proofs"} or len(roots) > 1:
        print(__doc__.strip(), file=sys.stderr)
        return 2
    root = os.path.abspath(roots[0] if roots else ROOT)
    try:
        return tell_proofs(root) if "--proofs" in options else tell(root, options)
    except Exception as wrong:  # whatever failed, nothing is shown
        print(f"calls: {wrong if isinstance(wrong, Wrong) else repr(wrong)}", file=sys.stderr)
        return 2


if __name__ == "__main__":
    sys.exit(main(sys.argv[1:]))
