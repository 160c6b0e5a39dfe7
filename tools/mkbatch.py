#!/usr/bin/env python3
"""Makes one file of all books of a folder:  python3 tools/mkbatch.py FOLDER BATCH [EXPECTED]

For each source NAME.did, in the order of names by bytes, BATCH holds a record:
    a length byte and NAME
    the limits that the book is asked under, of names, nodes and definitions, four bytes each, little-endian: document 01's figures, but
        for tests/limits
    a length of four bytes, little-endian, and the book
and EXPECTED what answer_batch has to print of it, by tools/answers.py, and the tally. Every source says by its first lines some of the
outcomes, and these must agree:
    // fine: WHAT IT SHOWS                       the layout is whole (tests/layout), with the counts in the book's table of contents
    // broken RULES: WHAT IT SHOWS               the layout is broken, with the words of tools/layout.py for the rules
    // passes: WHAT IT SHOWS                     the check passes (tests/check)
    // refused NUMBER NAMED: WHAT IT SHOWS       the check refuses it; NAMED is a NAME of tools/mkbook.py, or -
    // init ..: WHAT IT SHOWS                    the init check: a second line of a source whose book has an init file and passes the check
    // answers: WHAT IT SHOWS                    the questions (tests/list): each line after it states the outcome of one
    // random SEED-NUMBER: WHAT IT SHOWS         nothing is said (tests/random)
    // limits: WHAT IT SHOWS                     other limits (tests/limits): each line after it has three and states what is right under them
A stated outcome of a question is
    // QUESTION: ENTRY ..        QUESTION is as in tools/answers.py, with a TEXT where it is about a name
    // QUESTION: none            an ENTRY is a TEXT, a number, METHOD.KIND.INDEX or one of chains or lookups, with repeat and nest as in a source
    // QUESTION: refused NUMBER TEXT, or for TEXT - or a number outside the table
    // QUESTION: passes          of check and init-check
    // QUESTION: whole N N N N   of layout: names, nodes, definitions, files
    // QUESTION: needs N         of a question with too short a list
    // alias TEXT: N TEXT        the names crossed and the last of them
    // values: TEXT N ..         each name with the number of its values, or `many`
    // use-counts: N .. total N  the number of uses of each listed definition, and their sum
    // methods: TEXT N .. TEXT ..  each name with the positions of the methods that change with it alone
Each three limits are a record of its own, whose name is NAME@NAMES-NODES-DEFINITIONS; stated is
    // NAMES NODES DEFINITIONS: within    every line is as under document 01's figures
    // NAMES NODES DEFINITIONS: over      all but layout and name are refused with 24
    // NAMES NODES DEFINITIONS: broken    the layout is broken, so all are refused with 1
"""

import os
import re
import struct
import sys

import answers
import layout
import mkbook
import replay

FIRST_LINE = re.compile(r"// (?:fine|broken (?P<rules>[a-z]+(?: [a-z]+)*)): \S.*\n")
OUTCOME = r"(?:passes|refused (?P<number>[0-9]+) (?P<named>-|\w+|\".*?\"(?: \* [0-9]+)?)): \S.*\n"
CHECK_LINE = re.compile("// " + OUTCOME)
INIT_LINE = re.compile(r"//.*\n// init " + OUTCOME)
ANSWERS_LINE = re.compile(r"// answers: \S.*\n")
TEXT = r'"(?:[^"\\]|\\.)*"'
RANDOM_LINE = re.compile(r"// random [0-9]+-[0-9]+: \S.*\n")
LIMITS_LINE = re.compile(r"// limits: \S.*\n")
UNDER_LINE = re.compile(r"// ([0-9]+) ([0-9]+) ([0-9]+): (within|over|broken)")
HIGHEST_LIMIT = (1 << 32) - 1


def words(*kinds):
    """A pattern of the words of such questions."""
    return "|".join(row.word + ("(?:-short)?" if row.again else "") for row in answers.asked_of(*kinds))


QUESTION = rf"(?P<question>(?:{words(answers.OF_BOOK, answers.OF_WHOLE)})|(?:{words(answers.OF_NAME)}) (?P<asked>{TEXT}))"
STATED_LINE = re.compile(f"// {QUESTION}: " + r"(?P<outcome>\S.*)")
REFUSED = re.compile(rf"refused (?P<number>[0-9]+) (?P<named>-|[0-9]+|{TEXT})")


def sources(folder):
    """Names and texts of a folder's sources."""
    for name in sorted((entry[:-4] for entry in os.listdir(folder) if entry.endswith(".did")), key=str.encode):
        with open(os.path.join(folder, name + ".did"), encoding="utf-8") as file:
            yield name, file.read()


def broken_rules(text):
    """The rules that a source says it breaks; none if it says that it is fine."""
    match = FIRST_LINE.match(text)
    if not match:
        raise mkbook.SourceError("the first line does not say `// fine: ..` or `// broken RULES: ..`")
    return set((match["rules"] or "").split())


def is_of_check(text):
    """Whether a source's first line is of the check."""
    return bool(CHECK_LINE.match(text))


def outcome(match):
    """The refusal's number and the bytes of its name, None where there is none; both None if it passes."""
    if match["number"] is None:
        return None, None
    return int(match["number"]), None if match["named"] == "-" else mkbook.name(match["named"])


def verdict(text):
    """What the check says of a source, by its first line."""
    match = CHECK_LINE.match(text)
    if not match:
        raise mkbook.SourceError("the first line does not say `// passes: ..` or `// refused NUMBER NAMED: ..`")
    return outcome(match)


def init_verdict(text):
    """What the init check says of it, by its second line. It says what the check says where that refuses or there is no
    init file, and the source has no such line then."""
    checked, match = verdict(text), INIT_LINE.match(text)
    needed = checked == (None, None) and bool(re.search(r"^file .* init$", text, re.MULTILINE))
    if needed != bool(match):
        raise mkbook.SourceError("the second line says `// init passes: ..` or `// init refused NUMBER NAMED: ..` exactly where "
                                 "a book with an init file passes the check")
    return outcome(match) if match else checked


def said(found):
    """A verdict as it is printed."""
    number, named = found
    if number is None:
        return "passed"
    return f"refused {number} {'-' if named is None else layout.quoted(named)}"


def is_of_questions(text):
    """Whether a source's first line is of the questions."""
    return bool(ANSWERS_LINE.match(text))


def entries(text):
    """Stated entries as they are printed."""
    source, found = mkbook.Source(mkbook.tokens(text)), []
    while source.peek():
        if source.peek()[0] == '"':
            found.append(layout.quoted(source.text()))
        else:
            found.append(source.next())
            while source.take("."):
                found[-1] += "." + source.next()
    return found


def given(word, listed):
    """Stated entries after `given` and their number, but for what is no entry of its own: the name of an unbound chain, the actor's lookup, and the
    name before a number of values. An alias chain is one entry that begins with its number; `total` and the sum are after numbers of uses; an entry
    of methods is a name, and goes on with positions."""
    if word == "alias":
        return " ".join(["given", *listed])
    if word == "use-counts":
        return " ".join([f"given {len(listed) - 2}", *listed])
    if word == "methods":
        count = sum(entry.startswith('"') for entry in listed)
    elif word in (*answers.INNER, "values"):
        count = sum(not entry.startswith(("actor", '"')) for entry in listed)
    else:
        count = len(listed)
    return " ".join([f"given {count}", *listed])


def stated(text):
    """The outcomes that a source of the questions states, as they are printed."""
    if not is_of_questions(text):
        raise mkbook.SourceError("the first line does not say `// answers: ..`")
    found = {}
    for line in text.splitlines()[1:]:
        if not line.startswith("//"):
            break
        match = STATED_LINE.fullmatch(line)
        if not match:
            raise mkbook.SourceError(f"not a question and its outcome: {line}")
        question, said, refused = match["question"], match["outcome"], REFUSED.fullmatch(match["outcome"])
        if match["asked"]:
            question = f"{question.split()[0]} {layout.quoted(mkbook.name(match['asked']))}"
        if question in found:
            raise mkbook.SourceError(f"{question} is stated twice")
        if refused:
            named = refused["named"]
            if named.startswith('"'):
                named = layout.quoted(mkbook.name(named))
            found[question] = f"refused {refused['number']} {named}"
        elif said == "passes":
            found[question] = "passed"
        elif said.startswith("needs "):
            found[question] = f"{said} refused 16 -"
        elif said.startswith("whole "):
            found[question] = said
        else:
            found[question] = given(question.split()[0], [] if said == "none" else entries(said))
    if not found:
        raise mkbook.SourceError("no outcome is stated")
    return found


def is_random(text):
    return bool(RANDOM_LINE.match(text))


def is_of_limits(text):
    """Whether a source's first line is of limits."""
    return bool(LIMITS_LINE.match(text))


def limited(text):
    """The limits that such a source is asked under, with what it states of each three."""
    if not is_of_limits(text):
        raise mkbook.SourceError("the first line does not say `// limits: ..`")
    found = {}
    for line in text.splitlines()[1:]:
        if not line.startswith("//"):
            break
        match = UNDER_LINE.fullmatch(line)
        if not match:
            raise mkbook.SourceError(f"not three limits and what is right under them: {line}")
        limits = answers.Limits(*map(int, match.groups()[:3]))
        if max(limits) > HIGHEST_LIMIT:
            raise mkbook.SourceError(f"a limit has four bytes: {line}")
        if limits in found:
            raise mkbook.SourceError(f"limits are stated twice: {line}")
        found[limits] = match[4]
    if not found:
        raise mkbook.SourceError("no limits are stated")
    return found


def asked_under(name, text):
    """The name and the limits of each record of a source."""
    if is_of_limits(text):
        return [(f"{name}@{limits.names}-{limits.nodes}-{limits.definitions}", limits) for limits in limited(text)]
    return [(name, answers.FULL)]


def right_under(limits, text, book, found):
    """What the outcomes found of a book under limits have to be, by what its source states of these."""
    stated, full = limited(text)[limits], answers.outcomes(book)
    if (stated == "broken") != (full == answers.BROKEN):
        raise mkbook.SourceError(f"{stated} is stated of a book whose layout is {full['layout']}")
    if stated == "over":
        return {question: full[question] if question in ("layout", "name") else "refused 24 -" for question in found}
    return dict.fromkeys(found) | full  # and no question more


def claims(text, book):
    """The outcomes of answer_batch that a source of document 01's figures states."""
    if is_of_check(text):
        return {"check": said(verdict(text)), "init-check": said(init_verdict(text))}
    if is_of_questions(text):
        return stated(text)
    if is_random(text):
        return {}
    if broken_rules(text):
        return answers.BROKEN
    return {"layout": " ".join(["whole", *map(str, struct.unpack("<8I", book[:32])[1::2])])}


def agreed(text, book, limits=answers.FULL, found=None):
    """The outcomes of answer_batch on a book under limits, with which those agree that its source states."""
    found = found or answers.outcomes(book, limits)
    right = right_under(limits, text, book, found) if is_of_limits(text) else claims(text, book)
    for question, outcome in right.items():
        if found.get(question) != outcome:
            raise mkbook.SourceError(f"{question}: {outcome} is stated, {found.get(question)} is found")
    return found


def answered(name, text, book):
    """The lines of a source for answer_batch."""
    return "".join(line for name, limits in asked_under(name, text) for line in replay.lines(name, agreed(text, book, limits)))


def record(name, book, limits=answers.FULL):
    return bytes([len(name.encode())]) + name.encode() + struct.pack("<4I", *limits, len(book)) + book


def main():
    if len(sys.argv) not in (3, 4):
        sys.exit("usage: python3 tools/mkbatch.py FOLDER BATCH [EXPECTED]")
    folder, batch_path, *expected_path = sys.argv[1:]
    books = []
    for source, text in sources(folder):
        try:
            book = bytes(mkbook.book(text))
            books += [(name, book, limits, agreed(text, book, limits) if expected_path else None) for name, limits in asked_under(source, text)]
        except mkbook.SourceError as error:
            sys.exit(f"{folder}/{source}.did: {error}")
    with open(batch_path, "wb") as batch:
        batch.writelines(record(name, book, limits) for name, book, limits, _ in books)
    for path in expected_path:
        with open(path, "w", encoding="utf-8") as lines:
            lines.writelines(replay.printed((name, outcomes) for name, _, _, outcomes in books))


if __name__ == "__main__":
    main()
