#!/usr/bin/env python3
r"""Answers the questions on a book, by the papers alone:

    python3 tools/answers.py BOOK-OR-SOURCE.did [NAME METHOD PLACES [NAMES NODES DEFINITIONS]]

This is a second reading of document 01, of the Rust functions that it names and of requests 1, 3, 4, 8, 10, 13 and 14 of document 02, for the tests;
tools/layout.py reads the bytes. It prints, one line each, what the program answer_batch prints of the book after its name:

    layout OUTCOME          whether the layout is whole, with the counts of names, nodes, definitions and files
    name OUTCOME            every name by its number, then the number after the last and the highest, which give nothing
    check OUTCOME           the check
    init-check OUTCOME      the init check
    list OUTCOME            the definition list
    marks OUTCOME           the marks over that list, over no names where it is refused
    marks-back OUTCOME      over it from its end
    marks-outside OUTCOME   over it and then a number outside every table
    marks-highest OUTCOME   over it and then the highest number
    init OUTCOME            the init list
    draft OUTCOME           the draft list
    empty OUTCOME           the names of definitions that have no value of finite height
    values OUTCOME          each name is asked for the number of its values: those that have one, with it
    use-counts OUTCOME      how many uses each listed definition has, in the order of the list, and then `total` and their sum
    methods OUTCOME         each name alone is asked for the methods that change with it: those that have some, with their positions
    chains OUTCOME          the alias chain from each definition's body, in order, all files' definitions taken as one environment
    lookups OUTCOME         what stands at the chain's end from the body of each definition but the init file's, and from main's actor
    uses "NAME" OUTCOME     for each name of the table: its uses, METHOD.KIND.INDEX,
    alias "NAME" OUTCOME    the number of names that the alias chain from it crosses, and the last of them,
    project "NAME" OUTCOME  the positions of the methods projected when it is asked for once
    twice "NAME" OUTCOME    and twice
    uses-outside OUTCOME    the uses of a number outside every table
    alias-outside OUTCOME   its alias chain,
    alias-highest OUTCOME   that of the highest number,
    values-outside OUTCOME  how many values it has,
    values-highest OUTCOME  and how many the highest number,
    project-outside OUTCOME the methods projected when it is asked for,
    project-highest OUTCOME when the highest number is,
    project-none OUTCOME    when nothing is asked for,
    project-all OUTCOME     when all names are whose own projection is given, the last name first,
    project-every OUTCOME   and when every name of the table is, the last name first
    methods-outside OUTCOME the positions of the methods that change with a number outside every table,
    methods-highest OUTCOME with the highest number,
    methods-none OUTCOME    when nothing is asked,
    methods-all OUTCOME     with any of all names, the last name first,
    methods-even OUTCOME    with any of those of even number, the last first and each asked twice,
    methods-odd OUTCOME     and with any of the others, the last first

OUTCOME is `passed` of a check, `whole` and the counts of a layout, `given`, the number of entries and these, or `refused`, the number
and the name or `-`. A number that was asked with and is outside the book's table is named as it is, without quotes. An alias is given as the
number of names and the last one. An entry of values is a name and the number of its values, or `many`; a name without definition, which is refused
with 3, has none. One of methods is a name and the positions of the methods that change with it; a name with which none does has none. An entry of
chains is ends.K, circle.K or unbound.K and the name without definition, one of lookups f.K (a function), s.K (a service) or -.K; K are the names
crossed, of a chain that never ends as many as there are definitions. After the lookups comes actor.K, of what stands below main's class, where main
has an actor; it is no entry. These two are of functions inside the crates, which C has not: chains is refused with 1, 24, 18 and 2, lookups with what
the check is. Of a book with more than 514 names that lists none, so that no name has uses, there are lines about the first 8 names and the last 8
alone. A broken book is not asked about names. After list, marks, init, draft, empty, use-counts, uses, project-all and methods-all, if entries were
given, it is asked again with one place fewer than they take:

    QUESTION-short needs N refused 16 -

Every question but layout and name is asked under three limits: `refused 24 -` if a whole book has more names, nodes or definitions than
its limit, before all else. A limit above document 01's figure counts as that figure. Without limits told, all three are these figures, FULL.
Then each is `refused 18` if a label is repeated anywhere in the book: two children of one record or variant with equal label numbers, or two
methods of one service with equal names. It names the later one's label if it is spelled, of the lowest node that has such an earlier sibling.

QUESTIONS below is the table of them all; a new question is a row there. With the numbers of a NAME and of a METHOD and the PLACES lent, in
numbers, it prints what c/questions.c has to: each question once, uses and alias chain of NAME, a projection to METHOD and the methods that change
with either of the two, names by number; with limits under these.
"""

import functools
import math
import sys
from collections import Counter, namedtuple

import graphs
import layout
import mkbook

sys.setrecursionlimit(1 << 16)

NULL, BOOL, NAT8, NAT16, INT8, INT16, RESERVED, EMPTY = 0, 1, 4, 5, 8, 9, 15, 16
NAME, OPT, VEC, RECORD, VARIANT, FUNC, SERVICE, CLASS, ARGS = range(18, 27)
MAIN, TYPE_IMPORT, SERVICE_IMPORT, INIT = range(4)
ONEWAY = 1
OF_CLASS = 65535  # stands for the method in a use by an argument of the actor's class
OUTSIDE = 1024  # the first number outside every name table
HIGHEST = 65535  # the last one
MOST_VALUES = 4294967295  # what has more of them has many
MANY = "many"
OF_PRIMITIVE = {NULL: 1, BOOL: 2, NAT8: 256, NAT16: 65536, INT8: 256, INT16: 65536, RESERVED: 1}  # how many values; the others but empty have many
MOST_USES = 4096  # entries in the list that answer_batch lends for uses; its other lists are long enough for all
MOST_NAMES = 514  # a book that has more of them and lists none is asked about some alone:
FIRST_AND_LAST = 8  # so many of the first and of the last

Limits = namedtuple("Limits", "names nodes definitions")
FULL = Limits(1024, 4096, 512)  # document 01's figures; what is above them counts as they do
Tree = namedtuple("Tree", "kind label_kind label value kids")
Definition = namedtuple("Definition", "name file type")
File = namedtuple("File", "name role type")  # type is None without a root


class Refused(Exception):
    """A refusal: its number, a name number where its row has one, and the entries needed where it is 16."""

    def __init__(self, number, name=None, needed=None):
        self.number, self.name, self.needed = number, name, needed


class Book:
    """Names as bytes; definitions and files with their trees. 1 if the layout is broken."""

    def __init__(self, data):
        reader = layout.Reader(data)
        if reader.faults:
            raise Refused(1)
        rows, trees = reader.book, {layout.NO_ROOT: None}
        for at in reversed(range(len(rows.nodes))):  # children come after their parent
            node, kids, child = rows.nodes[at], [], at + 1
            while child < at + node.size:
                kids.append(trees[child])
                child += rows.nodes[child].size
            trees[at] = Tree(node.kind, node.label_kind, node.label, node.value, kids)
        self.counts = [len(part) for part in rows]
        self.names = rows.names
        self.definitions = [Definition(row.name, row.file, trees[row.root]) for row in rows.definitions]
        self.files = [File(row.name, row.role, trees[row.root]) for row in rows.files]

    def definitions_of(self, *roles):
        return [row for row in self.definitions if self.files[row.file].role in roles]

    def trees(self):
        """Those of all definitions, then of all files: their nodes in preorder are the book's in order."""
        return [row.type for row in [*self.definitions, *self.files] if row.type is not None]


def within(book, limits):
    """24: all that a whole book has is counted, used or not, of every file."""
    if any(count > min(limit, most) for count, limit, most in zip(book.counts, limits, FULL)):
        raise Refused(24)


@functools.cache
def repeated(book):
    """The lowest node of all trees that has an earlier sibling of an equal label, None where none has."""
    later = set()  # a parent comes before its children, so these are known when they are met
    for tree in book.trees():
        for node in nodes(tree):
            if id(node) in later:
                return node
            labels = set()
            for kid in node.kids if node.kind in (RECORD, VARIANT, SERVICE) else []:
                label = label_of(book.names, node, kid)
                if label in labels:
                    later.add(id(kid))
                labels.add(label)
    return None


def distinct(book):
    """18: whatever is asked, and in whatever tree the repeat is."""
    later = repeated(book)
    if later is not None:
        raise Refused(18, later.label if later.label_kind == 2 else None)


# Trees

def nodes(tree):
    """A tree's nodes in preorder."""
    found, left = [], [tree]
    while left:
        found.append(left.pop())
        left += reversed(found[-1].kids)
    return found


def references(tree):
    """The names that a type refers to."""
    return {node.value for node in nodes(tree) if node.kind == NAME}


def label_of(names, parent, kid):
    """What tells a child from its siblings: a field's label number, a method's name."""
    by_number = parent.kind != SERVICE and kid.label_kind == 2
    return layout.label_number(names[kid.label]) if by_number else kid.label


def arguments_of(function):
    return function.kids[:function.value % 65536]


def results_of(function):
    return function.kids[function.value % 65536:]


def modes_of(function):
    return [digit for digit in layout.digits_of(function) if digit]


def below_class(actor):
    """The service of a class, or the actor itself."""
    return actor.kids[-1] if actor.kind == CLASS else actor


def chain(env, tree):
    """The names that a chain of names crosses, in order, and where it ends: in a type, at the number of a name without definition, which is
    not crossed, or None where it comes to a name again."""
    crossed = {}
    while tree.kind == NAME:
        if tree.value not in env:
            return [*crossed], tree.value
        if tree.value in crossed:
            return [*crossed], None
        crossed[tree.value] = True
        tree = env[tree.value]
    return [*crossed], tree


def alias_end(env, tree):
    """The type that a chain of names, all of them defined, ends in, None where it runs into a circle."""
    return chain(env, tree)[1]


# The check

def once(definitions):
    """2: the definitions by name."""
    env = {}
    for row in definitions:
        if row.name in env:
            raise Refused(2, row.name)
        env[row.name] = row.type
    return env


def check_type(env, tree, methods):
    """3, 4, 5, 6 and, if methods are tested, 9: children first, left to right."""
    if tree.kind == NAME and tree.value not in env:
        raise Refused(3, tree.value)
    if tree.kind == CLASS:
        raise Refused(4)
    for kid in tree.kids:
        check_type(env, kid, methods)
        if methods and tree.kind == SERVICE and alias_end(env, kid).kind != FUNC:
            raise Refused(9, kid.label)
    if tree.kind == FUNC:
        if len(modes_of(tree)) > 1:
            raise Refused(5)
        if modes_of(tree) == [ONEWAY] and results_of(tree):
            raise Refused(6)


def check_decs(definitions):
    """2 to 8."""
    env = once(definitions)
    for row in definitions:
        check_type(env, row.type, False)
    for name in sorted(env):
        if alias_end(env, env[name]) is None:
            raise Refused(7, name)
    for row in definitions:
        for node in nodes(row.type):
            if node.kind == SERVICE and any(alias_end(env, method).kind != FUNC for method in node.kids):
                raise Refused(8)
    return env


def chase_service(env, tree, refusal):
    """The methods of a service, names followed; 3, or the refusal if it is none."""
    while tree.kind == NAME:
        if tree.value not in env:
            raise Refused(3, tree.value)
        tree = env[tree.value]
    if tree.kind != SERVICE:
        raise refusal
    return tree.kids


def resolve_actor(book, env):
    """The actor, None where there is none. With service imports: main's methods, then theirs."""
    actor = book.files[0].type
    imports = [file for file in book.files if file.role == SERVICE_IMPORT]
    if not imports:
        return actor
    methods = [] if actor is None else list(chase_service(env, below_class(actor), Refused(10)))
    for file in imports:
        methods += chase_service(env, file.type, Refused(13, file.name))
    hashes = set()
    for method in methods:
        number = layout.label_number(book.names[method.label])
        if number in hashes:
            raise Refused(14, method.label)
        hashes.add(number)
    service = Tree(SERVICE, 0, 0, 0, methods)
    if actor is not None and actor.kind == CLASS:
        return Tree(CLASS, 0, 0, 0, actor.kids[:-1] + [service])
    return service


def check_actor(env, actor):
    """3, 4, 5, 6, 9, and then 10."""
    for tree in actor.kids if actor.kind == CLASS else [actor]:
        check_type(env, tree, True)
    if alias_end(env, below_class(actor)).kind != SERVICE:
        raise Refused(10)


def examine(book):
    """18, and then the check of document 01."""
    distinct(book)
    for file in book.files:
        if file.role == SERVICE_IMPORT and file.type is None:
            raise Refused(12, file.name)
    env = check_decs(book.definitions_of(MAIN, TYPE_IMPORT, SERVICE_IMPORT))
    actor = resolve_actor(book, env)
    if actor is not None:
        check_actor(env, actor)
    return env, actor


@functools.cache
def examined(book):
    try:
        return examine(book)
    except Refused as refusal:
        return refusal


def check(book):
    """The definitions of roles 0 to 2 by name, and the actor or None, of a book that passes."""
    found = examined(book)
    if isinstance(found, Refused):
        raise Refused(found.number, found.name)
    return found


def merging(names, tree):
    """What a merge compares: a node's children are told by their labels, fields by label number, methods by name."""
    return [(node.kind, node.value, [label_of(names, node, kid) for kid in node.kids]) for node in nodes(tree)]


def init_check(book):
    """The merged definitions and the init arguments."""
    env, _ = check(book)
    if book.files[-1].role != INIT:
        return env, []
    own, arguments = check_decs(book.definitions_of(INIT)), book.files[-1].type.kids
    for name in sorted(own):
        if name in env and merging(book.names, own[name]) != merging(book.names, env[name]):
            raise Refused(11, name)
    merged = {**env, **own}
    for argument in arguments:
        check_type(merged, argument, True)
    return merged, arguments


# The questions

def handed(entries, places):
    """16: entries, if a lent list of so many places has room for them."""
    if len(entries) > places:
        raise Refused(16, needed=len(entries))
    return entries


def chase_types(env, trees):
    """The names met, each after those first met inside its definition; 3."""
    seen, found = set(), []

    def walk(tree):
        if tree.kind == NAME and tree.value not in seen:
            seen.add(tree.value)
            if tree.value not in env:
                raise Refused(3, tree.value)
            walk(env[tree.value])
            found.append(tree.value)
        for kid in tree.kids:
            walk(kid)

    for tree in trees:
        walk(tree)
    return found


def with_actor(book):
    """The check, then 17."""
    env, actor = check(book)
    if actor is None:
        raise Refused(17)
    return env, actor


def definition_list(book):
    env, actor = with_actor(book)
    return chase_types(env, [actor])


def init_list(book):
    return chase_types(*init_check(book))


def draft_list(book):
    """The main file alone, unchecked but for repeated labels: 18, 17, 2, 3."""
    distinct(book)
    actor = book.files[0].type
    if actor is None:
        raise Refused(17)
    return chase_types(once(book.definitions_of(MAIN)), [actor])


def marks(book, listed):
    """`infer_rec`: the names met in a listed definition before they are listed, ascending; 3."""
    env, _ = check(book)
    seen, marked = set(), set()
    for name in listed:
        if name not in env:
            raise Refused(3, name)
        marked |= references(env[name]) - seen
        seen.add(name)
    return sorted(marked)


def offered(book):
    """What an actor offers, as lists of types: its class's arguments, then for each method in order its arguments and its results; with METHOD and
    KIND."""
    env, actor = with_actor(book)
    actor = alias_end(env, actor)
    if actor.kind == CLASS:
        yield OF_CLASS, 0, actor.kids[:-1]
    for position, method in enumerate(alias_end(env, below_class(actor)).kids):
        function = alias_end(env, method)
        yield position, 0, arguments_of(function)
        yield position, 1, results_of(function)


@functools.cache
def types_offered(book):
    """These types, each once, by id: a function may be that of many methods, whose types are the same trees."""
    return {id(tree): tree for *_, trees in offered(book) for tree in trees}


@functools.cache
def chased(book):
    """The names met from each of them."""
    env, _ = with_actor(book)
    return {at: chase_types(env, [tree]) for at, tree in types_offered(book).items()}


@functools.cache
def chase_def_use(book):
    """The uses of each name that has any; of those too many for the list lent, one more than it holds."""
    met, rows = chased(book), {}
    for method, kind, trees in offered(book):
        for index, tree in enumerate(trees):
            for name in met[id(tree)]:
                row = rows.setdefault(name, [])
                if len(row) <= MOST_USES:
                    row.append((method, kind, index))
    return rows


def uses(book, name):
    return handed(chase_def_use(book).get(name, []), MOST_USES)


def use_counts(book):
    """Request 8: how many uses each listed definition has, in the order of the list. Together they have as many as one gets from the other side."""
    listed, met, counts = definition_list(book), chased(book), Counter()
    for at, times in Counter(id(tree) for *_, trees in offered(book) for tree in trees).items():
        counts.update(dict.fromkeys(met[at], times))
    found = [counts[name] for name in listed]
    assert sum(found) == counts.total() == reachable_together(book)
    return found


def reachable(refers, tree):
    """The names reachable from a type, by document 01's references: those that it refers to, and those that the definition of one refers to. This is
    no walk, and has no order."""
    found, more = set(), references(tree)
    while more:
        found |= more
        more = set().union(*(refers[name] for name in more)) - found
    return found


def reachable_together(book):
    """The other side: for every class argument of the actor, method argument and method result the number of definitions reachable from it, added
    up."""
    env, _ = with_actor(book)
    refers = {name: references(tree) for name, tree in env.items()}
    many = {at: len(reachable(refers, tree)) for at, tree in types_offered(book).items()}
    return sum(many[id(tree)] for *_, trees in offered(book) for tree in trees)


@functools.cache
def changing(book):
    """The names that each method changes with, in order: those reachable from the arguments and results of its function, which are all that is inside
    that function. Its own name is one of them only if it is reachable from there. A class's arguments are of no method."""
    env, actor = with_actor(book)
    refers, found = {name: references(tree) for name, tree in env.items()}, {}
    functions = [alias_end(env, method) for method in alias_end(env, below_class(actor)).kids]
    for function in functions:
        if id(function) not in found:  # a function may be that of many methods
            found[id(function)] = reachable(refers, function)
    return [found[id(function)] for function in functions]


def methods(book, asked):
    """Request 10: the positions of the methods with a use of any asked name. Nothing here asks how often a name is asked, or whether it is one."""
    asked = set(asked)
    return [position for position, names in enumerate(changing(book)) if not asked.isdisjoint(names)]


def all_methods(book):
    """What is given where each name of the table is asked alone; of those with which no method changes it is nothing."""
    with_actor(book)
    found = [(name, methods(book, [name])) for name in range(len(book.names))]
    return [(name, positions) for name, positions in found if positions]


def alias(book, name):
    """How many names the chain from a name crosses, and the last of them, whose definition is no name; 3."""
    env, _ = check(book)
    if name not in env:
        raise Refused(3, name)
    crossed, _ = chain(env, Tree(NAME, 0, 0, name, []))
    return len(crossed), crossed[-1]


def project(book, asked):
    """Methods in order take an asked name of theirs while one is left; 15."""
    env, actor = with_actor(book)
    left, taken = list(asked), []
    for position, method in enumerate(alias_end(env, below_class(actor)).kids):
        if method.label in left:
            left.remove(method.label)
            taken.append(position)
    if left:
        raise Refused(15, min(left))
    return taken


def having_values(body, valued):
    """Of each node of a type whether it has a value of finite height where of the names just those in `valued` have one. The nodes come from the
    last to the first, so that what is inside a node comes before it."""
    has = {}
    for node in body:
        if node.kind == EMPTY:
            found = False
        elif node.kind == RECORD:
            found = all(has[id(field)] for field in node.kids)
        elif node.kind == VARIANT:
            found = any(has[id(case)] for case in node.kids)
        elif node.kind == NAME:
            found = node.value in valued
        else:
            found = True
        has[id(node)] = found
    return has


def has_value(body, valued):
    """Whether the type itself has one, which comes last."""
    return having_values(body, valued)[id(body[-1])]


@functools.cache
def valued_names(book):
    """The names whose definition has a value of finite height. Each sweep over the definitions finds those that have one by what the names found
    before have, until one finds no more; then no value of finite height is of what is left."""
    env, _ = check(book)
    bodies = {name: nodes(tree)[::-1] for name, tree in env.items()}
    valued = set()
    while True:
        more = {name for name in env.keys() - valued if has_value(bodies[name], valued)}
        if not more:
            return valued
        valued |= more


def emptiness(book):
    """Request 4: the names whose definition is empty."""
    env, _ = check(book)
    return sorted(env.keys() - valued_names(book))


def contributing(tree, has):
    """A type and the parts whose values make values of it, each after what it is part of: parts of an opt, a record or a variant that have a value,
    if what they are part of has one. From a part's values so many of the whole are made at least."""
    found, left = [], [tree]
    while left:
        node = left.pop()
        if has[id(node)]:
            found.append(node)
            left += node.kids if node.kind in (OPT, RECORD, VARIANT) else []
    return found


def number_of_values(tree, has, of_name):
    """How many values a type that has one has, exactly, or MANY if something in it has no end: by the numbers of names, and from the last part to
    the first. Parts without value are not among these."""
    numbers = {}
    for node in reversed(contributing(tree, has)):
        parts = [numbers[id(kid)] for kid in node.kids if id(kid) in numbers]
        if node.kind == NAME:
            number = of_name[node.value]
        elif node.kind == VEC:
            number = MANY if has[id(node.kids[0])] else 1
        elif node.kind not in (OPT, RECORD, VARIANT):
            number = OF_PRIMITIVE.get(node.kind, MANY)
        elif MANY in parts:
            number = MANY
        else:
            number = math.prod(parts) if node.kind == RECORD else sum(parts) + (node.kind == OPT)
        numbers[id(node)] = number
    return numbers[id(tree)]


@functools.cache
def numbers_of_values(book):
    """Request 13: how many values of finite height each definition has, MANY if they are more than MOST_VALUES or without end. Where the values of a
    name make values of another and so on back to the name there is no end: each makes a higher one. The others come after those that make theirs.
    A number is exact within a definition; of a name one that is too large is MANY at once, since all that it makes values of has as many."""
    env, _ = check(book)
    valued, found, has = valued_names(book), dict.fromkeys(env, 0), {}
    for tree in env.values():
        has |= having_values(nodes(tree)[::-1], valued)
    making = {name: {node.value for node in contributing(env[name], has) if node.kind == NAME} for name in valued}
    for names in graphs.components(making):
        is_circle = len(names) > 1 or names[0] in making[names[0]]
        for name in names:
            number = MANY if is_circle else number_of_values(env[name], has, found)
            found[name] = MANY if number == MANY or number > MOST_VALUES else number
    return found


def values(book, name):
    """How many values a definition has, or MANY; 3."""
    found = numbers_of_values(book)
    if name not in found:
        raise Refused(3, name)
    return found[name]


def all_values(book):
    """What is given where each name of the table is asked about; of those without definition it is nothing."""
    check(book)
    found = []
    for name in range(len(book.names)):
        try:
            found.append((name, values(book, name)))
        except Refused:
            pass
    return found


# What functions inside the crates answer

def chains(book):
    """`trace_type` and its like on an unchecked book, from each body: how a chain ends, the names crossed, the name without definition. A chain
    that never ends has crossed as many names as there are definitions. 18, 2."""
    distinct(book)
    env, found = once(book.definitions), []
    for row in book.definitions:
        crossed, end = chain(env, row.type)
        if end is None:
            found.append(("circle", len(env), None))
        elif isinstance(end, Tree):
            found.append(("ends", len(crossed), None))
        else:
            found.append(("unbound", len(crossed), end))
    return found


def lookups(book):
    """`as_func` and `as_service` on a checked book, from each body and from main's actor, below its class: what is found, the names crossed."""
    env, _ = check(book)

    def found(tree):
        crossed, end = chain(env, tree)
        return {FUNC: "f", SERVICE: "s"}.get(end.kind, "-"), len(crossed)

    actor = book.files[0].type
    return ([found(row.type) for row in book.definitions_of(MAIN, TYPE_IMPORT, SERVICE_IMPORT)],
            None if actor is None else found(below_class(actor)))


# Lines

def refusal(refused, names):
    """A refusal of a book with these names."""
    if refused.name is None:
        named = "-"
    elif refused.name < len(names):
        named = layout.quoted(names[refused.name])
    else:
        named = str(refused.name)
    return f"refused {refused.number} {named}"


def given(entries):
    return " ".join([f"given {len(entries)}", *entries])


# How an answer is said.

def passed(lines, answer):
    return "passed"


def whole(lines, counts):
    return " ".join(["whole", *map(str, counts)])


def texts(lines, names):
    return given([layout.quoted(name) for name in names])


def names(lines, numbers):
    return given([lines.name(number) for number in numbers])


def numbers(lines, entries):
    return given([str(entry) for entry in entries])


def entries_of_uses(lines, entries):
    return given([".".join(map(str, entry)) for entry in entries])


def length_and_last(lines, found):
    count, last = found
    return f"given {count} {lines.name(last)}"


def names_and_values(lines, entries):
    return given([f"{lines.name(name)} {number}" for name, number in entries])


def names_and_methods(lines, entries):
    return given([" ".join([lines.name(name), *map(str, positions)]) for name, positions in entries])


def number_alone(lines, number):
    return f"given {number}"


def counts_and_total(lines, counts):
    return f"{numbers(lines, counts)} total {sum(counts)}"


def ends_of_chains(lines, entries):
    return given([f"{end}.{count}" + ("" if name is None else f" {lines.name(name)}") for end, count, name in entries])


def found_by_lookups(lines, found):
    entries, actor = found
    said = given([f"{kind}.{count}" for kind, count in entries])
    return said if actor is None else f"{said} {'actor' if actor[0] == 's' else 'actor-'}.{actor[1]}"


# A line: its word; of what it is asked: of every book, of each name of a whole one, and then of a whole one once; the word under which it
# is counted; its function; what that is asked with, beside the book; how its answer is said; whether it is asked again with too short a list.
Question = namedtuple("Question", "word of counted function asked said again")
OF_BOOK, OF_NAME, OF_WHOLE = "every book", "each name", "whole books"
QUESTIONS = tuple(Question(*row) for row in (
    ("layout", OF_BOOK, "layout", lambda book: book.counts, lambda lines, _: [], whole, False),
    ("name", OF_BOOK, "name", lambda book: [*book.names, b"", b""], lambda lines, _: [], texts, False),
    ("check", OF_BOOK, "check", check, lambda lines, _: [], passed, False),
    ("init-check", OF_BOOK, "init-check", init_check, lambda lines, _: [], passed, False),
    ("list", OF_BOOK, "list", definition_list, lambda lines, _: [], names, True),
    ("marks", OF_BOOK, "marks", marks, lambda lines, _: [lines.listed()], names, True),
    ("marks-back", OF_BOOK, "marks", marks, lambda lines, _: [lines.listed()[::-1]], names, False),
    ("marks-outside", OF_BOOK, "marks", marks, lambda lines, _: [[*lines.listed(), OUTSIDE]], names, False),
    ("marks-highest", OF_BOOK, "marks", marks, lambda lines, _: [[*lines.listed(), HIGHEST]], names, False),
    ("init", OF_BOOK, "init", init_list, lambda lines, _: [], names, True),
    ("draft", OF_BOOK, "draft", draft_list, lambda lines, _: [], names, True),
    ("empty", OF_BOOK, "empty", emptiness, lambda lines, _: [], names, True),
    ("values", OF_BOOK, "values", all_values, lambda lines, _: [], names_and_values, False),
    ("use-counts", OF_BOOK, "use-counts", use_counts, lambda lines, _: [], counts_and_total, True),
    ("methods", OF_BOOK, "methods", all_methods, lambda lines, _: [], names_and_methods, False),
    ("chains", OF_BOOK, "chains", chains, lambda lines, _: [], ends_of_chains, False),
    ("lookups", OF_BOOK, "lookups", lookups, lambda lines, _: [], found_by_lookups, False),
    ("uses", OF_NAME, "uses", uses, lambda lines, number: [number], entries_of_uses, True),
    ("alias", OF_NAME, "alias", alias, lambda lines, number: [number], length_and_last, False),
    ("project", OF_NAME, "project", project, lambda lines, number: [[number]], numbers, False),
    ("twice", OF_NAME, "project", project, lambda lines, number: [[number, number]], numbers, False),
    ("uses-outside", OF_WHOLE, "uses", uses, lambda lines, _: [OUTSIDE], entries_of_uses, False),
    ("alias-outside", OF_WHOLE, "alias", alias, lambda lines, _: [OUTSIDE], length_and_last, False),
    ("alias-highest", OF_WHOLE, "alias", alias, lambda lines, _: [HIGHEST], length_and_last, False),
    ("values-outside", OF_WHOLE, "values", values, lambda lines, _: [OUTSIDE], number_alone, False),
    ("values-highest", OF_WHOLE, "values", values, lambda lines, _: [HIGHEST], number_alone, False),
    ("project-outside", OF_WHOLE, "project", project, lambda lines, _: [[OUTSIDE]], numbers, False),
    ("project-highest", OF_WHOLE, "project", project, lambda lines, _: [[HIGHEST]], numbers, False),
    ("project-none", OF_WHOLE, "project", project, lambda lines, _: [[]], numbers, False),
    ("project-all", OF_WHOLE, "project", project, lambda lines, _: [lines.projected()[::-1]], numbers, True),
    ("project-every", OF_WHOLE, "project", project, lambda lines, _: [lines.every()[::-1]], numbers, False),
    ("methods-outside", OF_WHOLE, "methods", methods, lambda lines, _: [[OUTSIDE]], numbers, False),
    ("methods-highest", OF_WHOLE, "methods", methods, lambda lines, _: [[HIGHEST]], numbers, False),
    ("methods-none", OF_WHOLE, "methods", methods, lambda lines, _: [[]], numbers, False),
    ("methods-all", OF_WHOLE, "methods", methods, lambda lines, _: [lines.every()[::-1]], numbers, True),
    ("methods-even", OF_WHOLE, "methods", methods, lambda lines, _: [[name for name in lines.every()[::2][::-1] for _ in range(2)]],
     numbers, False),
    ("methods-odd", OF_WHOLE, "methods", methods, lambda lines, _: [lines.every()[1::2][::-1]], numbers, False),
))
ROWS = {row.word: row for row in QUESTIONS}
UNLIMITED = ("layout", "name")
LIMITED = [row for row in QUESTIONS if row.word not in UNLIMITED]  # those that take limits
# As C asks; answer_batch asks about each name, all in one line.
ASKED_BY_C = {"values": ROWS["values-outside"]._replace(word="values", asked=ROWS["alias"].asked),
              "methods": ROWS["methods-none"]._replace(word="methods", asked=lambda lines, numbers: [numbers])}
INNER = ("chains", "lookups")  # those of functions inside the crates
BROKEN = {row.word: 'given 2 "" ""' if row.word == "name" else "refused 1 -" for row in QUESTIONS if row.of == OF_BOOK}


def asked_of(*kinds):
    """The rows of such lines."""
    return [row for row in QUESTIONS if row.of in kinds]


class Lines:
    """The questions of answer_batch on a whole book under limits, each with its outcome as it is printed."""

    def __init__(self, book, limits):
        self.book, self.limits, self.found, self.answers = book, limits, {}, {}

    def name(self, number):
        return layout.quoted(self.book.names[number])

    def listed(self):
        return self.answers["list"] or []

    def every(self):
        """The numbers of all names."""
        return [*range(len(self.book.names))]

    def projected(self):
        """The names whose projection is given."""
        return [number for number in self.asked() if self.answers[f"project {self.name(number)}"] is not None]

    def asked(self):
        """The numbers of the names that the book is asked about."""
        count = len(self.book.names)
        if self.listed() or count <= MOST_NAMES:
            return range(count)
        return [*range(FIRST_AND_LAST), *range(count - FIRST_AND_LAST, count)]

    def answer(self, row, number):
        """What a question answers; 24 comes before all that its function refuses."""
        if row.word not in UNLIMITED:
            within(self.book, self.limits)
        return row.function(self.book, *row.asked(self, number))

    def ask(self, row, number=None):
        """Asks, and again with too short a list; the answer is None where it is refused."""
        about = "" if number is None else f" {self.name(number)}"
        try:
            answer = self.answer(row, number)
            self.found[row.word + about] = row.said(self, answer)
        except Refused as refused:
            answer = None
            self.found[row.word + about] = refusal(refused, self.book.names)
        self.answers[row.word + about] = answer
        if answer and row.again:
            try:
                handed(answer, len(answer) - 1)
            except Refused as refused:
                self.found[f"{row.word}-short{about}"] = f"needs {refused.needed} {refusal(refused, self.book.names)}"

    def all(self):
        for row in asked_of(OF_BOOK):
            self.ask(row)
        for number in self.asked():
            for row in asked_of(OF_NAME):
                self.ask(row, number)
        for row in asked_of(OF_WHOLE):
            self.ask(row)
        return self.found


def outcomes(data, limits=FULL):
    """Each question of answer_batch on a book under limits, with its entries or its refusal as they are printed."""
    try:
        book = Book(data)
    except Refused:
        return dict(BROKEN)
    return Lines(book, limits).all()


REFUSALS = (*range(1, 19), 24)


class Tally:
    """What answer_batch prints after the last book: how often each refusal was printed, and how often each question passed, was whole or
    gave entries. Questions of one function are counted together."""

    def __init__(self):
        self.refused = dict.fromkeys(REFUSALS, 0)
        self.given = {row.counted: 0 for row in QUESTIONS}

    def add(self, question, outcome):
        """Counts a line of answer_batch."""
        words = outcome.split(" ", 5)
        if words[0] == "needs":
            words = words[2:]
        if words[0] == "refused":
            self.refused[int(words[1])] += 1
        elif words[:2] != ["given", "0"]:
            self.given[ROWS[question.split(" ")[0]].counted] += 1

    def lines(self):
        found = [f"refused {number} {count}" for number, count in self.refused.items()]
        found += [f"given {question} {count}" for question, count in self.given.items()]
        is_complete = all([*self.refused.values(), *self.given.values()])
        return [f"tally {line}\n" for line in [*found, "complete" if is_complete else "incomplete"]]


def numbered(data, name, method, places, limits=FULL):
    """What c/questions.c prints of a book. How many uses are needed it knows up to MOST_USES alone."""
    about = {"uses": name, "alias": name, "values": name, "project": method, "methods": [name, method]}
    rows = [ASKED_BY_C.get(row.word, row) for row in LIMITED if row.word == row.counted and row.word not in INNER]
    try:
        lines = Lines(Book(data), limits)
    except Refused:
        return [f"{row.word} refused 1 -" for row in rows]
    found = []
    for row in rows:
        lines.answers[row.word] = None
        try:
            answer = lines.answers[row.word] = lines.answer(row, about.get(row.word))
            if row.said in (passed, number_alone):
                outcome = row.said(lines, answer)
            elif row.said is length_and_last:
                outcome = f"given {answer[0]} {answer[1]}"
            else:
                handed(answer, places // 3 if row.said is entries_of_uses else places)
                outcome = (entries_of_uses if row.said is entries_of_uses else numbers)(lines, answer)
        except Refused as refused:
            told = "-" if refused.name is None else refused.name
            outcome = f"refused {refused.number} {told if refused.needed is None else f'needs {refused.needed}'}"
        found.append(f"{row.word} {outcome}")
    return found


def listing(data):
    """What the program `list` prints of a book, under the full limits."""
    try:
        book = Book(data)
    except Refused as refused:
        return refusal(refused, []) + "\n"
    try:
        listed = definition_list(book)
        marked = marks(book, listed)
    except Refused as refused:
        return refusal(refused, book.names) + "\n"
    lines = [f"list {len(listed)} marked {len(marked)}"]
    lines += [f"{place} {'r' if name in marked else '-'} {layout.quoted(book.names[name])}"
              for place, name in enumerate(listed, 1)]
    return "\n".join(lines) + "\n"


def valuing(data):
    """What the program `values` prints of a book, under the full limits."""
    try:
        book = Book(data)
    except Refused as refused:
        return refusal(refused, []) + "\n"
    try:
        return "".join(f"{layout.quoted(book.names[name])} {number}\n" for name, number in all_values(book))
    except Refused as refused:
        return refusal(refused, book.names) + "\n"


def reporting(data):
    """What the program `uses_report` prints of a book, under the full limits."""
    try:
        book = Book(data)
    except Refused as refused:
        return refusal(refused, []) + "\n"
    try:
        counts = use_counts(book)
        lines = [f"{layout.quoted(book.names[name])} {count}" for name, count in zip(definition_list(book), counts, strict=True)]
    except Refused as refused:
        return refusal(refused, book.names) + "\n"
    return "\n".join([*lines, f"total {reachable_together(book)}"]) + "\n"


def naming(data, asked):
    """What the program `methods` prints of a book when it is asked for these names, which are bytes; under the full limits."""
    try:
        book = Book(data)
    except Refused as refused:
        return refusal(refused, []) + "\n"
    try:
        env, actor = with_actor(book)
        leading, more = set(), {number for number, name in enumerate(book.names) if name in asked}
        while more:  # the names whose definitions lead to an asked one
            leading |= more
            more = {name for name, tree in env.items() if not leading.isdisjoint(references(tree))} - leading
        changing = {position for position, _, trees in offered(book) for tree in trees if not leading.isdisjoint(references(tree))}
    except Refused as refused:
        return refusal(refused, book.names) + "\n"
    methods = alias_end(env, below_class(actor)).kids
    return "".join(f"{layout.quoted(book.names[method.label])}\n" for position, method in enumerate(methods) if position in changing)


def main():
    if len(sys.argv) not in (2, 5, 8):
        sys.exit("usage: python3 tools/answers.py BOOK-OR-SOURCE.did [NAME METHOD PLACES [NAMES NODES DEFINITIONS]]")
    with open(sys.argv[1], "rb") as file:
        data = file.read()
    if sys.argv[1].endswith(".did"):
        data = bytes(mkbook.book(data.decode()))
    if len(sys.argv) > 2:
        name, method, places, *limits = map(int, sys.argv[2:])
        print("\n".join(numbered(data, name, method, places, Limits(*limits or FULL))))
        return
    for question, outcome in outcomes(data).items():
        print(question, outcome)


if __name__ == "__main__":
    main()
