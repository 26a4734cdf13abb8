#!/usr/bin/env python3
"""format.py PROGRAM: docs/FORMAT.md, held against the program and the definitions.

PROGRAM reads a case file from standard input and prints its line. Every example of the document, spelled by tools/case, gives its line; every
result of answers/specs/Answers.antt has an example, and every form an accepted one whose root has it. The document's tables are tried: each
range at both ends and one past them, each field blank that is needed and filled that must be blank, every choice of the fields that may be
blank, and each kind with as many items as it may have and one more, and all kinds together. Every definition that is cited is declared in
its file.
"""
import collections
import itertools
import os
import re
import subprocess
import sys

from cases import LENGTH, ROOT
from pages import CRATES, blocks, changed, cut, results_defined, spell, table, unspelled, with_changes
from tally import Tally

DOCUMENT = ROOT / "docs" / "FORMAT.md"
FIELDS = range(1, 9)
SPELLED = range(-999999, 10000000)

# What the document has at least. Whoever adds to it raises them.
LEAST = {"examples": 105, "results": 18, "forms": 7, "spellings": 17, "rows": 27, "kinds": 6, "rules": 117, "citations": 272}

CITATION = re.compile(r"\[`([a-z_]+/(?:specs|src)/\w+\.(?:antt|rt))`: (`[^`]+`(?:, `[^`]+`)*)\]")
GIVES = re.compile(r"gives (\d+ \d+ \d+)(?: +with (.*?))? *(?:#.*)?")

# Of each kind: records to begin with, and the last of them as often as it takes.
ROOM = {
    "S": ["S 0"],
    "W": ["W 0 0 0 0"],
    "G": ["G 0 0 0 0 0"],
    "T": ["S 0", "T 0 0 0 0 0 0"],
    "F": ["F 0"],
    "P": ["S 0", "T 0 0 0 0 0 0", "P 0 . 0", "P 0 0 0"],
}

# A field by its table: the numbers that it may have; whether it is needed; the fields with which it is needed where it may be blank.
Field = collections.namedtuple("Field", "low high needed beside")


class Count(Tally):
    """What passed and what failed, and how many there were of each sort of thing."""

    def __init__(self):
        super().__init__("format")
        self.seen = collections.Counter()


def answer(program, data):
    return subprocess.run([program], input=data, stdout=subprocess.PIPE, check=True).stdout.decode("latin-1")


# ---- examples


def root_form(data):
    """The form of a case's last sentence, as it is spelled."""
    return [record[1:8].decode().strip() for record in cut(data) if record[:1] == b"F"][-1]


def example(count, program, name, records, line):
    """Runs the case of a block as a line of it gives it, and compares; the case, and the line that it says."""
    gives = GIVES.fullmatch(line)
    case = with_changes(spell(records), gives[2])
    count.equal(name, gives[1] + "\n", answer(program, case))
    count.seen["examples"] += 1
    return case, gives[1]


def examples(count, program, text):
    """Runs the examples; the results that they give, and the forms of accepted roots."""
    results, forms = set(), set()
    for first, lines in blocks(text, "case"):
        records = "\n".join(line for line in lines if not line.startswith("gives"))
        count.equal(f"line {first}: the block ends with a line to give", True, lines[-1].startswith("gives"))
        for number, line in enumerate(lines, first):
            if not line.startswith("gives"):
                continue
            try:
                case, said = example(count, program, f"line {number}", records, line)
            except (TypeError, ValueError, subprocess.CalledProcessError) as error:
                count.equal(f"line {number} can be read", True, error)
                continue
            results.add(int(said.split()[0]))
            if said == "0 0 0":
                forms.add(root_form(case))
    return results, forms


def spellings(count, program, text):
    """Seven bytes as the bound of a guard, which has the bytes 29 to 35: 14 where one is bad, 15 where they are blank, and else the guard is taken."""
    lines = {"blank": "15 0 5\n", **{f"bad at {byte}": f"14 0 {29 + byte}\n" for byte in range(7)}}
    for first, block in blocks(text, "spelling"):
        for number, line in enumerate(block, first):
            field, said = re.fullmatch('"(.*)" (.*)', line).groups()
            count.equal(f"line {number}: bytes of {field!r}", 7, len(unspelled(field)))
            got = answer(program, changed(spell("G 0 0 0 0 0"), f'put 0 29 "{field}"'))
            count.equal(f"line {number}: {field!r}", lines.get(said, "24 1 0\n"), got)
            if said not in lines:
                count.equal(f"line {number}: {field!r}", said, field.strip())
            count.seen["spellings"] += 1


# ---- the tables of kinds and fields


def numbers(text):
    return [int(number.replace(",", "")) for number in re.findall("-?[0-9][0-9,]*", text.replace(", ", " "))]


def listed(text):
    """The numbers of fields: "1 to 4", "2, 3", "5", "none"."""
    ends = numbers(text)
    return range(ends[0], ends[1] + 1) if " to " in text else ends


def fields_of(text):
    """The fields of each record of the table: of a kind, or of a sentence with its form."""
    found = {}
    for record, field, _, bounds, filled, _ in table(text, "| record | field |"):
        rules = found.setdefault(record, {})
        for number in listed(field):
            low, high = numbers(bounds)
            rules[number] = Field(low, high, filled == "needed", set(numbers(filled)))
    return found


def shapes(found):
    """The kinds, and the forms of sentences: the letter, the fields, and a number that each may have."""
    form = found["F"][1]
    forms = {f"F {number}" for number in range(form.low, form.high + 1)}
    if forms != {record for record in found if record[1:]}:
        raise ValueError(f"the table's forms aren't {sorted(forms)}")
    for record, rules in found.items():
        if record in forms:
            rules = {1: form, **rules}
            yield "F", rules, {number: int(record[2:]) if number == 1 else rule.low for number, rule in rules.items()}
        elif record != "F":
            yield record, rules, {number: rule.low for number, rule in rules.items()}


def choices(rules, right):
    """Every choice of the fields that may be blank, and the lowest that is missing then, if any."""
    needed = {number for number in rules if rules[number].needed}
    optional = sorted(set(rules) - needed)
    for chosen in itertools.chain.from_iterable(itertools.combinations(optional, size) for size in range(len(optional) + 1)):
        missing = [number for number in optional if number not in chosen and rules[number].beside & set(chosen)]
        yield {number: right[number] for number in needed | set(chosen)}, f"15 0 {missing[0]}" if missing else None


def probes(letter, rules, right):
    """Records of this shape by their fields, and the line of each; None where its fields are as they must be."""
    yield from choices(rules, right)
    for number in FIELDS:
        if number not in rules:
            yield {**right, number: 0}, f"15 0 {number}"
            continue
        low, high, needed, _ = rules[number]
        if needed:
            yield {field: right[field] for field in right if field != number}, f"15 0 {number}"
        for outside in (low - 1, high + 1):
            if outside in SPELLED:
                yield {**right, number: outside}, f"16 0 {number}"
        if (letter, number) != ("F", 1):
            yield {**right, number: high}, None


def tried(count, program, text):
    """The table of fields, record by record. Of a record whose fields are as they must be, the line is a later result."""
    tries = [(letter, *probe) for letter, rules, right in shapes(fields_of(text)) for probe in probes(letter, rules, right)]
    records = [" ".join([letter] + [str(filled.get(number, ".")) for number in FIELDS]) for letter, filled, _ in tries]
    for record, data, (_, _, want) in zip(records, cut(spell("\n".join(records))), tries):
        got = answer(program, data).strip()
        count.equal(f"table of fields: {record}", want, None if int(got.split()[0]) > 20 else got)
        count.seen["records"] += 1
    count.seen["rows"] = len(table(text, "| record | field |"))


def one_too_many(count, program, name, records):
    """All records but the last are taken, and the last is refused."""
    data, last = spell("\n".join(records)), len(records) - 1
    count.equal(f"{name}, one too many", f"22 {last} 0\n", answer(program, data))
    count.equal(name, f"24 {last} 0\n", answer(program, data[:-LENGTH]))


def rooms(count, program, text):
    """The table of kinds: as many items as there may be are taken, and one more is refused; of each kind, and of all kinds together."""
    most = {letter: numbers(many)[1] for letter, _, many, *_ in table(text, "| letter | kind |")}
    full = []
    for letter, room in most.items():
        before = [record for record in ROOM[letter] if record[0] != letter]
        records = ROOM[letter][len(before):]
        records += records[-1:] * (room - len(records))
        one_too_many(count, program, f"table of kinds: {letter}", before + records + records[-1:])
        full += records
        count.seen["kinds"] += 1
    one_too_many(count, program, "table of kinds: all", full + full[-1:])
    said = re.search(r"A case has room for (\d+) records. So at the latest the (\d+)th is refused", text).groups()
    count.equal("the room of a case", (len(full), len(full) + 1), tuple(map(int, said)))


# ---- what is cited


def declares(source, name):
    """Whether a file declares the name: at the beginning of a line, after keywords, with a type, parameters or fields after it."""
    words = "pub|abbrev|unfoldable|record|data|struct|enum|fn"
    return bool(re.search(rf"^(?:(?:{words}) )+{re.escape(name)} ?[:({{]", source, re.M))


def rules_of(text):
    """What needs a citation: from the first section on each paragraph, and each row of a table that has a column for it."""
    prose = re.sub("^```.*?^```$", "", text[text.index("\n## "):], flags=re.M | re.S)
    for part in filter(None, map(str.strip, prose.split("\n\n"))):
        lines = part.split("\n")
        if lines[0].endswith("| carried by |"):
            yield from lines[2:]
        elif part[0] not in "#|":
            yield part


def citations(count, text):
    """Every file that is named stands in a citation, and declares the names; every rule has a citation."""
    for path, names in CITATION.findall(text):
        file = CRATES / path
        source = file.read_text(encoding="utf-8") if file.is_file() else ""
        for name in re.findall("`([^`]+)`", names):
            count.equal(f"{path} declares {name}", True, declares(source, name))
            count.seen["citations"] += 1
    count.equal("files named outside a citation", [], re.findall(r"[\w/]+\.(?:antt|rt)\b", CITATION.sub("", text)))
    for rule in rules_of(text):
        count.equal(f"carried by a definition: {rule:.60}", True, bool(CITATION.search(rule)))
        count.seen["rules"] += 1


def main():
    if len(sys.argv) != 2:
        sys.exit(__doc__)
    program, text, count = os.path.abspath(sys.argv[1]), DOCUMENT.read_text(encoding="utf-8"), Count()
    count.equal("names of blocks", ["case", "fill", "rounds", "spelling"], sorted(set(re.findall("^```(.+)$", text, re.M))))
    results, forms = examples(count, program, text)
    defined = results_defined()
    count.equal("results with an example", sorted(defined), sorted(results))
    count.equal("results in the table", defined, list(dict.fromkeys(int(row[0]) for row in table(text, "| result | what is wrong |"))))
    form = fields_of(text)["F"][1]
    count.equal("forms with an accepted example", [str(number) for number in range(form.low, form.high + 1)], sorted(forms))
    spellings(count, program, text)
    tried(count, program, text)
    rooms(count, program, text)
    citations(count, text)
    count.seen.update(results=len(results), forms=len(forms))
    for thing, least in LEAST.items():
        count.equal(f"{thing}, at least {least}", True, count.seen[thing] >= least)
    seen = ", ".join(f"{number} {thing}" for thing, number in count.seen.items())
    count.finish(f" ({seen})")


if __name__ == "__main__":
    main()
