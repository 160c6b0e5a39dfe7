"""The stack that one level of a recursion takes, from the machine code: a part of tools/calls.py.

The code is what `objdump` prints of the library and of the programs' own objects. Held: each call is direct, to a function of these or to one of C,
in the library to one that the compiler itself uses; data point into their own function alone; what names each other is a circle of the graph too, or
the kit's own alone; each instruction has one length of the stack, by all ways to it, and no instruction moves the stack but as `added` knows.

Assumed: a C function, which is what has no path for a name, calls none of these back; linking changes no call; what only tables of jumps lead to has
the stack that the function's jumps by table have, which have to agree; a function keeps its name, but for what the compiler adds after a dot and the
kit in `::<#..>`.
"""

import collections
import os
import re
import subprocess

from graphs import Wrong, circles, expect

C_OF_COMPILER = {"memcpy", "memset", "memmove", "memcmp", "bcmp"}
Instruction = collections.namedtuple("Instruction", "at word operands symbol")  # the symbol that is put in when it is linked, or None


def objdump(option, path):
    expect(os.path.exists(path), f"{path} is not there: tools/build.sh makes the machine code")
    command = ["objdump", option, "--no-show-raw-insn", path]
    try:
        done = subprocess.run(command, capture_output=True, encoding="utf-8", env={**os.environ, "LC_ALL": "C"})
    except FileNotFoundError:
        raise Wrong("`objdump` is missing: install binutils") from None
    expect(done.returncode == 0, f"`objdump {option} {path}` failed:\n{done.stderr.strip()}")
    return done.stdout.splitlines()


def without_place(symbol):
    """A relocation's symbol without what is added, a section's as its function."""
    return re.sub(r"[-+]0x[0-9a-f]+$", "", symbol).removeprefix(".text.").removeprefix("unlikely.")


def machine_functions(path):
    """The instructions of each function."""
    found, section, code = {}, None, None
    for line in objdump("-dr", path):
        if line.startswith("Disassembly of section "):
            section, code = line.removeprefix("Disassembly of section ").rstrip(":"), None
        elif re.match(r"[0-9a-f]+ <.*>:$", line):
            name = line[line.index("<") + 1:-2]
            fine = re.fullmatch(r"\.text\.(unlikely\.)?" + re.escape(name), section) and int(line.split()[0], 16) == 0 and name not in found
            expect(fine, f"{path}: {name} has no section of its own")
            code = found[name] = []
        elif re.match(r"\s*[0-9a-f]+:\s", line):
            at, text = line.strip().split(":", 1)
            if re.match(r"\s*R_X86_64_", text):
                expect(code[-1].symbol is None, f"{path}: an instruction of {name} has two symbols")
                code[-1] = code[-1]._replace(symbol=without_place(text.split()[1]))
            else:
                word, _, operands = re.sub(r"^((data16|cs|notrack|bnd) )+", "", text.strip()).partition(" ")
                code.append(Instruction(int(at, 16), word, operands.strip(), None))
        else:
            known = not line.strip() or "file format" in line or line.startswith("In archive ")
            expect(known, f"{path}: objdump says what this tool does not know: {line}")
    expect(found, f"{path}: no function")
    return found


def check_tables(path, functions):
    """Data point into the code of their own function alone: no function is called by what a table has."""
    section = None
    for line in objdump("-r", path):
        if line.startswith("RELOCATION RECORDS FOR "):
            section = line.removeprefix("RELOCATION RECORDS FOR [").rstrip("]:")
        elif re.match(r"[0-9a-f]{8,} ", line) and not re.match(r"\.text\.|\.eh_frame$", section):
            name = without_place(line.split()[2])
            expect(name not in functions or section == f".rodata.{name}", f"{path}: {section} points to {name}")


def machine_calls(path, functions):
    """What each function of the machine code names."""
    graph = {}
    for name, code in functions.items():
        named = graph[name] = set()
        for one in code:
            table = one.symbol and one.symbol.removeprefix(".rodata.")
            if one.symbol in functions:
                named.add(one.symbol)
            elif table in functions and table != name:
                named.add(table)
            elif one.symbol and not re.match(r"\.(rodata|LCPI|Lstatic)", one.symbol):
                is_c = one.symbol in C_OF_COMPILER or not path.endswith(".a") and "::" not in one.symbol
                expect(is_c, f"{path}: {name} calls {one.symbol}, which is no function of the crates or of C")
            if one.word.startswith("call") and not one.symbol:
                expect(re.fullmatch(rf"0 <{re.escape(name)}>", one.operands), f"{path}: {name} has a call that is not direct: {one.operands}")
                named.add(name)
    return graph


def added(one):
    """By how many bytes an instruction makes the stack longer."""
    moved = re.fullmatch(r"\$0x([0-9a-f]+),%rsp", one.operands)
    if one.word in ("push", "pushq", "pop", "popq"):
        return 8 if one.word.startswith("push") else -8
    if one.word in ("sub", "add") and moved:
        count = int(moved[1], 16)
        count -= count >> 63 << 64
        return count if one.word == "sub" else -count
    written_to = re.search(r"(^|,)%(rsp|esp|sp|spl)$", one.operands) and not re.match("cmp|test", one.word)
    moves = written_to or re.match("leave|enter|push|pop[fw]", one.word)
    expect(not moves, f"`{one.word} {one.operands}` moves the stack as this tool does not know")
    return 0


def is_padding(one):
    return re.match("nop|int3", one.word) or (one.word, one.operands) == ("xchg", "%ax,%ax")


def depths(name, code):
    """How long the stack is before each instruction, without the return address. What nothing else leads to is where a table of jumps leads."""
    depth, tables = {}, set()
    walk(name, code, (0, 0), depth, tables)
    while rest := [place for place, one in enumerate(code) if place not in depth and not is_padding(one)]:
        unclear = f"{name}: it is not clear how long the stack is at {code[rest[0]].at:#x}"
        expect(len(tables) == 1, unclear)
        walk(name, code, (rest[0], *tables), depth, tables)
        expect(len(tables) == 1, unclear)
    return depth


def walk(name, code, start, depth, tables):
    """All ways from a place with its length of the stack: `depth` gets the length at each place, `tables` that at each jump by a table."""
    index, todo = {one.at: place for place, one in enumerate(code)}, [start]
    while todo:
        place, length = todo.pop()
        expect(place < len(code), f"{name}: the code goes on after its end")
        one = code[place]
        expect(depth.get(place, length) == length, f"{name}: the stack has two lengths at {one.at:#x}")
        if place in depth:
            continue
        depth[place] = length
        length += added(one)
        if one.word == "ret":
            expect(length == 0, f"{name}: it returns with another stack than it had")
        elif one.word == "jmp" and one.operands.startswith("*"):
            tables.add(length)
        elif one.word.startswith("j") and not one.symbol:
            target = re.match(r"([0-9a-f]+) <", one.operands)
            expect(target and int(target[1], 16) in index, f"{name}: `{one.word} {one.operands}` goes where no instruction is")
            todo.append((index[int(target[1], 16)], length))
        if one.word not in ("ret", "jmp", "ud2"):
            todo.append((place + 1, length))


def costs(name, code, members):
    """To each member that a function names the most bytes that the stack has grown by then."""
    depth, most = depths(name, code), collections.defaultdict(int)
    for place, one in enumerate(code):
        is_call = one.word.startswith("call")
        callee = one.symbol or is_call and name
        if callee in members:
            most[callee] = max(most[callee], depth[place] + (8 if is_call else 0))
    return most


def levels(functions, graph):
    """Of each circle in the machine code the bytes that the stack grows by once round it, by the longest way round."""
    found = {}
    for members in circles(graph):
        cost = {name: costs(name, functions[name], members) for name in members}
        paths, most = [(name,) for name in members], 0
        while paths:
            path = paths.pop()
            for callee in graph[path[-1]] & set(members):
                if callee == path[0]:
                    most = max(most, sum(cost[one][other] for one, other in zip(path, path[1:] + path[:1])))
                elif callee not in path:
                    paths.append(path + (callee,))
        found[tuple(members)] = most
    return found


def objects(root, crates):
    """The library's machine code, and that of each program."""
    programs = [crate for crate in crates if os.path.exists(os.path.join(root, "crates", crate, "src", "main.rt"))]
    return [os.path.join("target", "staticlib", "libexports.a")] + [os.path.join("target", "obj", f"{program}.o") for program in programs]


def without_addition(name):
    return re.sub(r"(\.llvm)?\.[0-9]+$", "", re.sub(r"::<#[0-9a-f]+>", "", name))


def stacks(root, paths, crates, found):
    """Of each circle of the graph the most bytes a level in any machine code, 0 if it is a loop there; and how many functions the machine code has."""
    most, count = [0] * len(found), 0
    for path in paths:
        functions = machine_functions(os.path.join(root, path))
        check_tables(os.path.join(root, path), functions)
        count += len(functions)
        for members, level in levels(functions, machine_calls(path, functions)).items():
            names = {without_addition(member) for member in members}
            if not any(name.split("::")[0] in crates for name in names):
                continue
            place = next((place for place, circle in enumerate(found) if names <= set(circle)), None)
            expect(place is not None, f"{path}: the machine code has a circle that the graph has not: {', '.join(members)}")
            most[place] = max(most[place], level)
    return most, count
