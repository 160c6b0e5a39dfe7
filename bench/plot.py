#!/usr/bin/env python3
"""Tables and a plot of the figures of bench/bench.sh:  python3 bench/plot.py [FOLDER]

From bench/benchmarks.tsv it makes bench/benchmarks.svg, time against nodes for the series `size`, and the tables of bench/tables.md and
docs/FIGURES.md: what stands there between `<!-- figures: NAME -->` and `<!-- end -->` is replaced by the table of that name, the other text
is left alone. FOLDER is target/oracle/bench with sweep.tsv, measure.tsv and undefined; without it the tables of these stay as they are.
"""

import csv
import math
import os
import re
import statistics
import sys

HERE = os.path.dirname(os.path.abspath(__file__))
FIGURES = os.path.join(HERE, "benchmarks.tsv")
PLOT = os.path.join(HERE, "benchmarks.svg")
DOCUMENTS = os.path.join(HERE, "tables.md"), os.path.join(HERE, "..", "docs", "FIGURES.md")

SIZES = ("small", "medium", "full", "full-mixed")
INITS = ("init-small", "init-full", "init-merged", "init-aliases")
USES = (*SIZES, "uses-few", "uses-many", "uses-shared")
SERIES = ("size", "nodes", "definitions", "depth", "methods", "imports", "aliases")
QUESTIONS = ("check", "list")


class Book:
    def __init__(self, row):
        self.name, self.has_init = row["book"], row["init"] == "1"
        self.names, self.nodes, self.definitions = (int(row[part]) for part in ("names", "nodes", "definitions"))
        self.runs = {}

    def ratio(self, question, against=""):
        return self.median[f"Rust {question}{against}"] / self.median[f"our {question}"]

    def pool(self):
        """Of several processes: the median of their medians, the lowest low and the highest high."""
        def of(column, pick):
            return {question: pick([int(row[column]) for row in rows]) for question, rows in self.runs.items()}
        self.low, self.high = of("low", min), of("high", max)
        self.median, self.first = of("median", statistics.median), of("first", statistics.median)
        self.entries = {question: rows[0]["entries"] for question, rows in self.runs.items()}


def read(path, one_by_one=False):
    """The books by name; one by one, a name that comes again is another book."""
    books, last = {}, None
    with open(path, newline="", encoding="utf-8") as file:
        for row in csv.DictReader(file, delimiter="\t"):
            key = row["book"]
            if one_by_one:
                again = last and last[0] == key and row["question"] not in books[last].runs
                key = last = last if again else (key, len(books))
            books.setdefault(key, Book(row)).runs.setdefault(row["question"], []).append(row)
    for book in books.values():
        book.pool()
    return books


def number(value):
    """Three digits, at least those before the point."""
    digits = max(0, 2 - math.floor(math.log10(value)))
    return f"{value:,.{digits}f}"


def microseconds(nanoseconds):
    return number(nanoseconds / 1000)


TABLES = {}


def table(name, head, rows):
    TABLES[name] = "\n".join(["| " + " | ".join(head) + " |", "|" + "---|" * len(head), *("| " + " | ".join(row) + " |" for row in rows)])


def fill(path):
    """Puts the tables into a document, where it names them."""
    with open(path, encoding="utf-8") as file:
        text = file.read()

    def filled(found):
        return f"<!-- figures: {found[1]} -->\n{TABLES[found[1]]}\n<!-- end -->" if found[1] in TABLES else found[0]

    text = re.sub(r"<!-- figures: (.*?) -->\n.*?<!-- end -->", filled, text, flags=re.DOTALL)
    with open(path, "w", encoding="utf-8") as file:
        file.write(text)


def spread(book, question):
    return f"{microseconds(book.median[question])} ({microseconds(book.low[question])} to {microseconds(book.high[question])})"


AGAINST = ("", " and decoding", " alone")


def sizes(books, question, names, head=None):
    kinds = (f"our {question}", *(f"Rust {question}{against}" for against in AGAINST))
    rows = []
    for name in (name for name in names if name in books and kinds[0] in books[name].median):
        ratios = [number(books[name].ratio(question, against)) for against in AGAINST]
        rows.append([name, *(spread(books[name], kind) for kind in kinds), f"**{ratios[0]}**", *ratios[1:]])
    table(question, [head or question, "ours", "Rust", "with decoding", "alone", "Rust / ours", "with decoding", "alone"], rows)


def summary(books):
    rows, sizes = [], [name for name in SIZES if name != "medium"]
    for question, names in (*((question, sizes) for question in QUESTIONS), ("init check", INITS[:3])):
        for name in names:
            ours, rust = (microseconds(books[name].median[f"{who} {question}"]) for who in ("our", "Rust"))
            rows.append([question, name, ours, rust, number(books[name].ratio(question))])
    table("summary", ["question", "book", "ours", "Rust", "Rust / ours"], rows)


def parts_of_uses(books):
    """What is counted and how much of that the list takes, and what the uses of one name take."""
    rows = []
    for book in books.values():
        if "our uses" in book.median:
            listed = int(book.entries["our uses of each"])
            each = book.median["our uses of each"] / listed
            rows.append([book.name.replace("-", " "), str(book.definitions), str(listed), f"{int(book.entries['our uses']):,}",
                         *(microseconds(book.median[f"our {question}"]) for question in ("check", "list", "uses")),
                         microseconds(book.median["Rust uses"]), number(book.ratio("uses")), microseconds(each)])
    head = ["uses of all names", "definitions", "listed", "uses", "check", "list", "ours", "Rust", "Rust / ours", "of one name"]
    table("parts of uses", head, rows)


def firsts(books):
    rows = []
    for name in SIZES:
        row = [name]
        for question in QUESTIONS:
            ours, rust = books[name].first[f"our {question}"], books[name].first[f"Rust {question}"]
            row += [microseconds(ours), microseconds(rust), number(rust / ours)]
        rows.append(row)
    table("first calls", ["first call", "our check", "Rust check", "Rust / ours", "our list", "Rust list", "Rust / ours"], rows)


def exponent(first, last, question, size):
    """The power of the size with which time grows from one book to another."""
    return math.log(last.median[question] / first.median[question]) / math.log(size(last) / size(first))


def growth(books):
    rows, powers = [], []
    for series in SERIES:
        found = [book for name, book in books.items() if name.startswith(series + "-")]
        for book in found:
            row = [book.name.replace("-", " "), f"{book.nodes:,}", str(book.definitions)]
            for question in QUESTIONS:
                row += [microseconds(book.median[f"our {question}"]), microseconds(book.median[f"Rust {question}"]),
                        number(book.ratio(question)), number(book.ratio(question, " alone"))]
            rows.append(row)
        by = {"nodes": lambda book: book.nodes, "size": lambda book: book.nodes}.get(series, lambda book: int(book.name.split("-")[1]))
        for question in (*QUESTIONS, "uses"):
            if any(f"our {question}" not in book.median for book in found):
                continue
            last = [f"{exponent(a, b, f'{who} {question}', by):.2f}" for who in ("our", "Rust")
                    for a, b in ((found[0], found[-1]), (found[-2], found[-1]))]
            powers.append([series, question, *last])
    head = [word for question in QUESTIONS for word in (f"our {question}", f"Rust {question}", "Rust / ours", "alone")]
    table("growth", ["book", "nodes", "definitions", *head], rows)
    table("powers", ["series", "question", "ours, first to last", "ours, last two", "Rust, first to last", "Rust, last two"], powers)


def sweep(books):
    rows = []
    for has_init in (False, True):
        for question in (*QUESTIONS, "init check") if has_init else QUESTIONS:
            for against in AGAINST:
                rust = f"Rust {question}{against}"
                asked = [book for book in books if rust in book.median and book.has_init == has_init]
                slower = [book for book in asked if book.ratio(question, against) < 1]
                row = [("init file, " if has_init else "") + question + against, str(len(asked)), str(len(slower)), "-", "-"]
                if slower:
                    row[3] = f"{max(book.nodes for book in slower):,}"
                    row[4] = number(max(book.median[f"our {question}"] - book.median[rust] for book in slower) / 1000)
                rows.append([*row, number(statistics.median(book.ratio(question, against) for book in asked))])
    table("every book", ["Rust", "books", "ours slower", "most nodes of those", "most microseconds more", "median ratio"], rows)


# Stack and heap

def most(rows, column):
    """The most of a column, in KiB, and the book that has it; none if it is empty."""
    found = [row for row in rows if row[column] != "-"]
    if not found:
        return ["-", "-"]
    row = max(found, key=lambda row: int(row[column]))
    return [kib(row[column]), row["book"]]


def kib(text):
    return "-" if text == "-" else f"{math.ceil(int(text) / 1024):,}"


def measured(path):
    with open(path, newline="", encoding="utf-8") as file:
        rows = list(csv.DictReader(file, delimiter="\t"))
    of_question = {}
    for row in rows:
        of_question.setdefault(row["question"], []).append(row)
    stacks, heaps = [], []
    for question, found in of_question.items():
        by_name = {row["book"]: row for row in found}
        own = [by_name[name] for name in ("p01", "full", "limit-nested-4096")]
        stacks.append([question, *(kib(row["our stack"]) for row in own), *most(found, "our stack"), *most(found, "Rust stack")])
        own = [by_name[name] for name in ("p01", "full", "full-mixed")]
        heaps.append([question, "0", *(kib(row["Rust heap"]) for row in own), *most(found, "Rust heap"), *most(found, "Rust heap alone")])
    answered = sum(row["Rust heap"] != "-" for row in of_question["check"])
    TABLES["measured"] = f"{len(of_question['check'])} books, of which the Rust was asked of {answered}."
    table("stack", ["stack, KiB", "P1", "full", "4,096 nested nodes", "most", "where", "Rust, most", "where"], stacks)
    table("heap", ["heap, KiB", "ours", "Rust: P1", "full", "full-mixed", "most", "where", "alone, most", "where"], heaps)


# The plot

WIDTH, HEIGHT, LEFT, RIGHT, TOP, BOTTOM = 820, 520, 70, 190, 30, 60
LINES = (("Rust list and decoding", "#c0392b", "6 4"), ("Rust list", "#c0392b", "none"), ("Rust check and decoding", "#e08e0b", "6 4"),
         ("Rust check", "#e08e0b", "none"), ("our list", "#1f5fa8", "none"), ("our check", "#2e8b57", "none"))
TEXTS = {"Rust list": "Rust list, no decoding", "Rust check": "Rust check, no decoding"}


def plot(books, path):
    points = sorted((book for name, book in books.items() if name.startswith("size-")), key=lambda book: book.nodes)
    values = [book.median[question] / 1000 for book in points for question, _, _ in LINES]
    x0, x1 = math.log10(points[0].nodes), math.log10(points[-1].nodes)
    y0, y1 = math.floor(math.log10(min(values))), math.ceil(math.log10(max(values)))

    def x(nodes):
        return LEFT + (math.log10(nodes) - x0) / (x1 - x0) * (WIDTH - LEFT - RIGHT)

    def y(time):
        return HEIGHT - BOTTOM - (math.log10(time) - y0) / (y1 - y0) * (HEIGHT - TOP - BOTTOM)

    out = [f'<svg xmlns="http://www.w3.org/2000/svg" width="{WIDTH}" height="{HEIGHT}" viewBox="0 0 {WIDTH} {HEIGHT}" '
           'font-family="sans-serif" font-size="12">', f'<rect width="{WIDTH}" height="{HEIGHT}" fill="white"/>']
    for power in range(y0, y1 + 1):
        place = y(10 ** power)
        out.append(f'<line x1="{LEFT}" x2="{WIDTH - RIGHT}" y1="{place:.1f}" y2="{place:.1f}" stroke="#ddd"/>')
        out.append(f'<text x="{LEFT - 8}" y="{place + 4:.1f}" text-anchor="end">{10 ** power:,}</text>')
    for book in points:
        place = x(book.nodes)
        out.append(f'<line x1="{place:.1f}" x2="{place:.1f}" y1="{TOP}" y2="{HEIGHT - BOTTOM}" stroke="#eee"/>')
        out.append(f'<text x="{place:.1f}" y="{HEIGHT - BOTTOM + 18}" text-anchor="middle">{book.nodes:,}</text>')
    last = points[-1]
    labels = []
    for question, colour, dashes in LINES:
        places = [(x(book.nodes), y(book.median[question] / 1000)) for book in points]
        way = " ".join(f"{a:.1f},{b:.1f}" for a, b in places)
        out.append(f'<polyline points="{way}" fill="none" stroke="{colour}" stroke-width="2" stroke-dasharray="{dashes}"/>')
        for (a, b), book in zip(places, points):
            low, high = y(book.low[question] / 1000), y(book.high[question] / 1000)
            out.append(f'<line x1="{a:.1f}" x2="{a:.1f}" y1="{low:.1f}" y2="{high:.1f}" stroke="{colour}"/>')
            out.append(f'<circle cx="{a:.1f}" cy="{b:.1f}" r="3" fill="{colour}"/>')
        labels.append([y(last.median[question] / 1000) + 4, TEXTS.get(question, question), colour])
    labels.sort(key=lambda label: label[0])
    for above, label in zip(labels, labels[1:]):
        label[0] = max(label[0], above[0] + 15)
    for place, text, colour in labels:
        out.append(f'<text x="{WIDTH - RIGHT + 10}" y="{place:.1f}" fill="{colour}">{text}</text>')
    # A line of growth in proportion, for the eye.
    first = y(points[0].median["our check"] / 1000)
    out.append(f'<line x1="{x(points[0].nodes):.1f}" y1="{first:.1f}" x2="{x(last.nodes):.1f}" '
               f'y2="{y(points[0].median["our check"] / 1000 * last.nodes / points[0].nodes):.1f}" stroke="#999" stroke-dasharray="2 3"/>')
    out.append(f'<text x="{(LEFT + WIDTH - RIGHT) / 2}" y="{HEIGHT - 16}" text-anchor="middle">nodes of the book (8 for each definition); '
               'dotted: in proportion</text>')
    out.append(f'<text x="16" y="{HEIGHT / 2}" text-anchor="middle" transform="rotate(-90 16 {HEIGHT / 2})">microseconds, median and the '
               'middle 80 of 100</text>')
    out.append("</svg>")
    with open(path, "w", encoding="utf-8") as file:
        file.write("\n".join(out) + "\n")


def main():
    if len(sys.argv) > 2:
        sys.exit("usage: python3 bench/plot.py [FOLDER]")
    books = read(FIGURES)
    summary(books)
    for question in QUESTIONS:
        sizes(books, question, SIZES)
    sizes(books, "init check", INITS)
    sizes(books, "uses", USES, "uses of all names")
    firsts(books)
    parts_of_uses(books)
    growth(books)
    for folder in sys.argv[1:]:
        sweep(list(read(os.path.join(folder, "sweep.tsv"), one_by_one=True).values()))
        measured(os.path.join(folder, "measure.tsv"))
        with open(os.path.join(folder, "undefined"), encoding="utf-8") as file:
            TABLES["undefined"] = f"`{file.read().strip()}`"
    plot(books, PLOT)
    for document in DOCUMENTS:
        fill(document)


if __name__ == "__main__":
    main()
