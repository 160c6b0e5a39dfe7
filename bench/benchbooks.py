#!/usr/bin/env python3
"""Writes the batch of books that bench/bench.sh times:  python3 bench/benchbooks.py [uses] > BATCH

Books of three sizes as they are met, bench/full.did, books with few and with many methods, books with init files, and series SERIES-SIZE in
which one thing grows; with `uses` those alone of which the uses are timed. The batch is laid out as that of tools/mkbatch.py, under full
limits; every book is made by tools/mkbook.py from a source that is written here.
"""

import os
import random
import sys

ROOT = os.path.join(os.path.dirname(os.path.abspath(__file__)), "..")
sys.path.append(os.path.join(ROOT, "tools"))

import mkbatch
import mkbook

# A ledger: 12 definitions.
SMALL = """
type Subaccount = blob;
type Account = record { owner : principal; subaccount : opt Subaccount };
type Tokens = nat;
type Timestamp = nat64;
type TransferArg = record { from_subaccount : opt Subaccount; to : Account; amount : Tokens; fee : opt Tokens; memo : opt blob;
  created_at_time : opt Timestamp };
type TransferError = variant { BadFee : record { expected_fee : Tokens }; InsufficientFunds : record { balance : Tokens }; TooOld;
  CreatedInFuture : record { ledger_time : Timestamp }; Duplicate : record { duplicate_of : nat };
  GenericError : record { error_code : nat; message : text } };
type TransferResult = variant { Ok : nat; Err : TransferError };
type Value = variant { Nat : nat; Int : int; Text : text; Blob : blob; Array : vec Value; Map : vec record { text; Value } };
type MetadataEntry = record { text; Value };
type Block = record { id : nat; block : Value };
type GetBlocksResult = record { log_length : nat; blocks : vec Block; callback : GetBlocks };
type GetBlocks = func (vec record { start : nat; length : nat }) -> (GetBlocksResult) query;
service : {
  icrc1_metadata : () -> (vec MetadataEntry) query; icrc1_name : () -> (text) query; icrc1_symbol : () -> (text) query;
  icrc1_decimals : () -> (nat8) query; icrc1_fee : () -> (Tokens) query; icrc1_total_supply : () -> (Tokens) query;
  icrc1_balance_of : (Account) -> (Tokens) query; icrc1_transfer : (TransferArg) -> (TransferResult); icrc3_get_blocks : GetBlocks;
}
"""

PRIMITIVES = "nat text bool int nat64 nat8 principal float64".split()


WORDS = [a + b for a in ("account", "block", "fee", "token", "order", "limit", "state", "key") for b in
         ("", "_id", "_of", "_list", "_time", "_hash", "_count", "_owner", "_kind", "_memo")]


class Mixed:
    """Records, variants, lists and aliases that name each other. `count` is that of the nodes, a service or list of arguments among them."""

    def __init__(self, definitions, fewest=2, most=9):
        self.chance = chance = random.Random(definitions)
        self.name = [f"{chance.choice(WORDS)}{i}" for i in range(definitions)]
        self.count, text = 1, []
        for i in range(definitions):
            self.count += 1
            form = chance.random()
            if form < 0.15 and i:
                text.append(f"type {self.name[i]} = {chance.choice(self.name[:i])};")
            elif form < 0.25:
                self.count += 1
                text.append(f"type {self.name[i]} = vec {self.leaf()};")
            else:
                labels = chance.sample(WORDS, chance.randint(fewest, most))
                kind = "record" if form < 0.75 else "variant"
                text.append(f"type {self.name[i]} = {kind} {{ {'; '.join(f'{label} : {self.part()}' for label in labels)} }};")
        self.text = "\n".join(text)

    def leaf(self):
        return self.chance.choice(self.name) if self.chance.random() < 0.3 else self.chance.choice(PRIMITIVES)

    def part(self):
        self.count += 1
        form = self.chance.random()
        if form < 0.25:
            self.count += 1
            return ("opt " if form < 0.15 else "vec ") + self.leaf()
        return self.leaf()

    def service(self, nodes, methods=None, arguments=1):
        """Methods up to so many nodes, or so many."""
        found = []
        while self.count + 2 + arguments <= nodes and len(found) != methods:
            self.count += 2 + arguments
            name = f"{self.chance.choice(WORDS)}_{len(found)}"
            given = ", ".join(self.leaf() for _ in range(arguments))
            found.append(f"{name} : ({given}) -> ({self.leaf()});")
        return f"service : {{ {' '.join(found)} }}"


def mixed(definitions, nodes):
    made = Mixed(definitions)
    return f"{made.text}\n{made.service(nodes)}"


def few_methods():
    made = Mixed(508, 5, 9)
    return f"{made.text}\n{made.service(4096, methods=4)}"


def many_methods():
    made = Mixed(90)
    return f"{made.text}\n{made.service(4096, arguments=3)}"


def shared_function():
    """Each name a method's, all of them of one function, which has the nodes that are left as its arguments."""
    methods = " ".join(f"{name} : f;" for name in ['""', "a", "f", *(f"m{i}" for i in range(1021))])
    return f"type a = nat; type f = func (repeat 3069 {{ a, }}) -> (); service : {{ {methods} }}"


# Init files

# What the ledger is installed with: definitions that main has too, and two more.
SMALL_INIT = """
type Subaccount = blob;
type Account = record { owner : principal; subaccount : opt Subaccount };
type Value = variant { Nat : nat; Int : int; Text : text; Blob : blob; Array : vec Value; Map : vec record { text; Value } };
type ArchiveOptions = record { num_blocks_to_archive : nat64; trigger_threshold : nat64; controller_id : principal };
type InitArgs = record { minting_account : Account; fee_collector : opt Account; transfer_fee : nat; token_name : text; token_symbol : text;
  metadata : vec record { text; Value }; initial_balances : vec record { Account; nat }; archive_options : ArchiveOptions };
args (InitArgs)
"""


def with_init(main, init):
    return f'file "main" main {main}\nfile "init" init {init}'


def init_alone(definitions, nodes):
    """The ledger with an init file that is most of the book."""
    made = Mixed(definitions)
    arguments = [made.leaf() for _ in range(nodes - made.count)]
    return with_init(SMALL, f"{made.text}\nargs ({', '.join(arguments)})")


def init_merged(definitions, nodes):
    """Main's definitions again in the init file."""
    main, init = Mixed(definitions), Mixed(definitions)
    arguments = [init.leaf() for _ in range(100)]
    return with_init(f"{main.text}\n{main.service(nodes - init.count - len(arguments))}", f"{init.text}\nargs ({', '.join(arguments)})")


def like_full(definitions):
    """bench/full.did's form without the names that fill it: 8 nodes for a definition."""
    body = "record {{ f : nat; g : opt a{0}; h : text; 5 : a{0} }}"
    text = [f"type a{i} = {body.format((i + 1) % definitions)};" for i in range(definitions)]
    methods = [f"m{i} : (a{i}) -> (a{i});" for i in range(2 * definitions // 3)]
    return "\n".join(text) + f"\nservice : {{ {' '.join(methods)} }}"


def wide(definitions, nodes):
    """So many definitions in a chain, each a record of as many fields as make so many nodes, and one method."""
    fields = (nodes - 3) // definitions - 1
    text = []
    for i in range(definitions):
        kinds = [PRIMITIVES[j % len(PRIMITIVES)] for j in range(fields)]
        kinds[-1] = f"a{(i + 1) % definitions}"
        labelled = [f"f{j} : {kind}" if j < 400 else f"{j} : {kind}" for j, kind in enumerate(kinds)]
        text.append(f"type a{i} = record {{ {'; '.join(labelled)} }};")
    return "\n".join(text) + "\nservice : { m : (a0) -> () }"


def nested(depth):
    return f"type a = nest {depth} {{ record {{ f : | }} }} {{ nat }}; service : {{ m : (a) -> () }}"


def aliases(count):
    text = [f"type a{i} = a{i + 1};" for i in range(count - 1)]
    return "\n".join(text) + f"\ntype a{count - 1} = record {{}}; service : {{ m : (a0) -> () }}"


def methods(count):
    return f"type f = func (nat) -> (text) query; service : {{ repeat {count} {{ m#### : f; }} }}"


def imports(count):
    return f'file "m" main service : {{}} file "i" service service : {{ repeat {count} {{ m#### : () -> (); }} }}'


def sources():
    yield "small", SMALL
    yield "medium", mixed(100, 800)
    with open(os.path.join(ROOT, "bench", "full.did"), encoding="utf-8") as file:
        yield "full", file.read()
    yield "full-mixed", mixed(512, 4096)
    yield "uses-few", few_methods()
    yield "uses-many", many_methods()
    yield "uses-shared", shared_function()
    yield "init-small", with_init(SMALL, SMALL_INIT)
    yield "init-full", init_alone(500, 4010)
    yield "init-merged", init_merged(256, 4096)
    yield "init-aliases", with_init(aliases(511), "type b = nat; args (a0, b)")
    for count in (4, 8, 16, 32, 64, 128, 256, 512):
        yield f"size-{count}", like_full(count)
    for nodes in (256, 512, 1024, 2048, 4096):
        yield f"nodes-{nodes}", wide(64, nodes)
    for count in (8, 16, 32, 64, 128, 256, 512):
        yield f"definitions-{count}", wide(count, 4096)
    for depth in (15, 60, 250, 1000, 4000):
        yield f"depth-{depth}", nested(depth)
    for count in (8, 32, 64, 128, 256, 512):
        yield f"aliases-{count}", aliases(count)
    for count in (16, 62, 250, 1000):
        yield f"methods-{count}", methods(count)
    for count in (64, 128, 256, 512, 1000):
        yield f"imports-{count}", imports(count)


def is_for_uses(name):
    return name.split("-")[0] in ("small", "medium", "full", "uses", "size")


def main():
    if sys.argv[1:] not in ([], ["uses"]):
        sys.exit("usage: python3 bench/benchbooks.py [uses] > BATCH")
    for name, text in sources():
        if sys.argv[1:] and not is_for_uses(name):
            continue
        try:
            book = mkbook.book(text)
        except mkbook.SourceError as error:
            sys.exit(f"{name}: {error}")
        sys.stdout.buffer.write(mkbatch.record(name, book))


if __name__ == "__main__":
    main()
