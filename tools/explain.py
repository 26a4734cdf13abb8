"""The line of a case file in words: what its result means, and what it names. Nothing is judged here; the line is the program's."""
import collections
import pathlib
import re

from notation import FIELDS, IS_NOTATION, KINDS, LENGTH, ORDER_MARKS, WIDTH, Refused, cut, field_of, in_columns, reads, show_record

FORMAT = pathlib.Path(__file__).resolve().parent.parent / "docs" / "FORMAT.md"
# A row of the format's table of fields: the record, its fields, what they hold, their range, whether they are filled.
ROW = re.compile(rf"^\| ([{''.join(KINDS)}](?: [0-9]+)?) \| ([0-9][0-9, to]*) \| (.*?) \| (.*?) \| (.*?) \|", re.M)
# The kind of which there is one record at most, so that it isn't counted.
WEIGHTS = KINDS["W"]
# The fields of a place, those of a move, and those of a sentence that says a guard, with its form.
STATE, INTO, MARKS, PLACES, ROUNDS, BACK = range(1, 7)
LEAVES, COMES, GUARDS = 1, 2, slice(7, 9)
FORM, GUARD, GUARD_FORM = 1, 2, "2"
# The kinds of the items that fields name, by the record's letter, of a sentence with its form.
NAMED_KINDS = {
    "T": {1: "state", 2: "state", 7: "guard", 8: "guard"},
    "F 2": {2: "guard"},
    "F 3": {2: "sentence", 3: "sentence"},
    "F 4": {2: "sentence"},
    "F 5": {2: "sentence"},
    "F 6": {2: "sentence", 3: "sentence", 6: "sentence", 8: "sentence"},
    "P": {1: "state", 2: "move", 3: "sentence", 6: "move"},
}
LAST = LENGTH - 1  # the byte that is a line feed
ORDER = f"the order is: {', '.join(KINDS.values())}"
# The ways into a place.
MOVE_IN, BACK_MOVE = "the move into the place", "the back move of the loop"

BYTES = {
    "\0": "a NUL", "\t": "a tab", "\n": "a line feed", "\r": "a carriage return", " ": "a space",
    "+": "a plus", ",": "a comma", "-": "a minus", ".": "a point", "0": "a 0",
}
# A byte of a field by its place.
ORDINALS = ["first", "second", "third", "fourth", "fifth", "sixth", "seventh"]
# What a field has before its bad byte, and what may stand there in place of that.
MAY_STAND = [
    (" {0,5}", "a space, a minus or 1 to 9; a 0 only as the field's last byte"),
    (" {6}", "a space or a digit; a minus needs a digit behind it"),
    (" *-", "1 to 9, behind the minus"),
    (" *-?[1-9][0-9]*", "a digit, up to the end of the field"),
]

# A record as an item: the record's number, its kind, its number among those of its kind, its letter and the words of its fields, its bytes.
Item = collections.namedtuple("Item", "record kind number words bytes")


# ---- bytes


def spelled(text):
    """Bytes so that all of them can be read, in quotes."""
    return '"' + "".join(map(spelled_byte, text)) + '"'


def spelled_byte(byte):
    if byte == "\\":
        return r"\\"
    return byte if " " <= byte <= "~" else rf"\x{ord(byte):02x}"


def called(byte):
    return BYTES.get(byte, spelled(byte))


def as_bytes(record, bad=None):
    """A record's bytes without its line feed; with a caret under the bad one."""
    lines = [spelled(record[:LAST] + record[LAST:].rstrip("\n"))]
    if bad is not None:
        lines.append(" " * len(spelled(record[:bad])[:-1]) + "^")
    return lines


def first_odd(record):
    """The first byte that no record has there: it doesn't print, and isn't the line feed at the end; None where there is none."""
    return next((place for place, byte in enumerate(record) if not " " <= byte <= "~" and (place, byte) != (LAST, "\n")), None)


def odd_line(record, odd):
    """What the first odd byte is."""
    rule = f"and only byte {LAST} may be one" if record[odd] == "\n" else "which no record has"
    return f"byte {odd} is {called(record[odd])}, {rule}"


def lost_spaces(line, behind):
    """Whether a line is a record but for spaces at its end: filled up it is one, with a number, and behind it the next begins, or the file ends."""
    follows = behind.lstrip("\r\n")[:1]
    return len(line) < LAST and in_columns(line.ljust(LAST)) and line[1:].strip(" ") != "" and (follows == "" or follows in KINDS)


def line_faults(records, where):
    """What is wrong with the line in which a record stands, where it is a fault that files have by the way in which they were written or sent."""
    record = records[where]
    line, ended, behind = "".join(records[where:where + 2]).partition("\n")
    body, whole = line.removesuffix("\r"), in_columns(record[:LAST])
    lost = lost_spaces(body, behind) and (ended or not body.endswith(" "))
    at_end = where == len(records) - 1 and not record.strip("\r\n")
    faults = [
        (where == 0 and record.startswith(tuple(ORDER_MARKS)), "the file begins with a byte order mark, and nothing may stand before the first record"),
        (ended and body != line and len(line) <= LENGTH, "the line ends with a carriage return and a line feed, and lines end with a line feed alone"),
        (lost, f"the line ends after {counted(len(body), 'byte')}: spaces at its end are missing"),
        (ended and not body, "the file ends with an empty line" if at_end else "an empty line stands where the record should begin"),
        (whole and record[LAST:] in KINDS, "a line feed is missing: the next record begins in its place"),
        (lost and not ended or whole and len(record) == LAST, "the last line feed is missing"),
    ]
    return [words for is_so, words in faults if is_so]


# ---- items


def items(records, kind):
    """The items of a kind."""
    found = []
    for number, record in enumerate(records):
        if KINDS.get(record[0]) == kind:
            words = [record[0]] + [field_of(record, field).strip(" ") for field in range(1, FIELDS + 1)]
            found.append(Item(number, kind, len(found), words, record))
    return found


def item(records, number):
    """The item that a record is."""
    return items(records[:number + 1], KINDS[records[number][0]])[-1]


def named(thing):
    return f"record {thing.record}, {thing.kind} {thing.number}"


def shown(thing):
    """An item in the short notation."""
    return f"{named(thing)}: {show_record(named(thing), thing.bytes).strip()}"


def counted(number, kind):
    return f"{number} {kind}" if number == 1 else f"{number} {kind}s"


def holding(records):
    """How many items there are of each kind; of weights, that they are there."""
    numbers = {kind: len(items(records, kind)) for kind in KINDS.values()}
    return ", ".join(kind if kind == WEIGHTS else counted(number, kind) for kind, number in numbers.items() if number or kind != WEIGHTS)


def is_whole(thing):
    """Whether an item can be shown."""
    return in_columns(thing.bytes[:-1]) and thing.bytes[-1] == "\n"


def start_lines(records):
    """What the run starts from, where the case has weights."""
    return [f"the run starts from {shown(weights)}" for weights in items(records, WEIGHTS)]


def guard_lines(records, sentence):
    """What a sentence goes by that says a guard."""
    if sentence.words[FORM] != GUARD_FORM:
        return []
    return [f"its guard is {shown(items(records, 'guard')[int(sentence.words[GUARD])])}"] + start_lines(records)


def sort_of(thing, field):
    """The record's letter, behind which a sentence has its form where a field depends on that."""
    letter, form = thing.words[:2]
    return f"F {form}" if letter == "F" and field > 1 else letter


def row_of(thing, field):
    """What the format's table says of a field: what it holds, its range, whether it is filled; nothing where the record's kind and form have no such field."""
    rows = ROW.findall(FORMAT.read_text(encoding="latin-1"))
    if not rows:
        raise Refused(f"{FORMAT} has no table of fields")
    for record, numbers, *says in rows:
        listed = list(map(int, re.findall("[0-9]+", numbers)))
        if "to" in numbers:
            listed = range(listed[0], listed[1] + 1)
        if record == sort_of(thing, field) and field in listed:
            return says
    return []


def format_of(thing, field):
    """The same in one text."""
    return "; ".join(row_of(thing, field))


def range_of(thing, field):
    """A field's range, as the format has it."""
    return row_of(thing, field)[1]


def in_range(thing, field):
    """Whether the number in a field is in its range."""
    least, greatest = (int(number.replace(",", "")) for number in range_of(thing, field).split(" to "))
    return least <= int(thing.words[field]) <= greatest


def field_lines(thing, field):
    """A field's text, and what the format says of it."""
    says = format_of(thing, field)
    return [
        f"field {field} is {thing.words[field] or 'blank'}",
        f"field {field} holds: {says}" if says else f"field {field} isn't listed for this record, and so must be blank",
    ]


def loops(places):
    """The first places of the loops, in the order of the plan: they have a length."""
    return [place for place in places if place.words[PLACES]]


def endless(places):
    """Those of endless loops (there is one at most, the last): they have no rounds."""
    return [place for place in loops(places) if not place.words[ROUNDS]]


def counted_loops(records):
    """Those of counted loops, which have the lowest numbers."""
    return [place for place in loops(items(records, "place")) if place.words[ROUNDS]]


def last_of(loop):
    """The number of the last place of the loop that a place begins."""
    return loop.number + int(loop.words[PLACES]) - 1


def span(loop):
    """The places of the loop that a place begins."""
    return f"place {loop.number} to place {last_of(loop)}"


def ways(places, place):
    """The ways into a place: what the move is there, the place from which it leads, the move's number."""
    if place.words[INTO]:
        yield MOVE_IN, places[place.number - 1], int(place.words[INTO])
    if place.words[PLACES]:
        yield BACK_MOVE, places[last_of(place)], int(place.words[BACK])


def marked(place):
    """The sentences that a place marks."""
    marks = int(place.words[MARKS])
    return [number for number in range(marks.bit_length()) if marks >> number & 1]


def marks_line(place):
    sentences = "sentences " + ", ".join(map(str, marked(place))) if marked(place) else "no sentence"
    return f"the marks of place {place.number} are {place.words[MARKS]}: {sentences}"


def absent(records, thing, field):
    """The kind and the number of an item that a field names and that isn't there; of marks, the lowest."""
    kind = NAMED_KINDS[sort_of(thing, field)][field]
    if (thing.kind, field) != ("place", MARKS):
        return kind, int(thing.words[field])
    there = len(items(records[:thing.record], kind))
    return kind, [number for number in marked(thing) if number >= there][0]


def below_lines(records, thing, field):
    """Of an item that isn't there: where it, or others of its kind, stand too far below, and the order of kinds."""
    kind, number = absent(records, thing, field)
    below = [other for other in items(records, kind) if other.record > thing.record and is_whole(other)]
    there = [other for other in below if other.number == number]
    if (thing.kind, thing.number) == (kind, number):
        lines = ["it names itself"]
    elif there:
        lines = [f"further below stands {shown(there[0])}"]
    elif below:
        lines = [f"further below {'stands' if len(below) == 1 else 'stand'} {counted(len(below), f'more {kind}')}, but no {kind} {number}"]
    else:
        return []
    return lines + [ORDER] + ["a sentence names only sentences before it"] * (thing.kind == kind)


# ---- what each result names: lines, of the records and the line's second and third number


def accepted(records, _where, _what):
    return [f"the root is {shown(items(records, 'sentence')[-1])}"]


def too_short(records, where, _):
    record, odd = records[where], first_odd(records[where])
    says = [] if odd is None else [odd_line(record, odd)]
    return [f"record {where} has {len(record)} of {LENGTH} bytes:", *as_bytes(record, odd), *says, *line_faults(records, where)]


def no_line_feed(records, where, _):
    record, odd = records[where], first_odd(records[where])
    bad = LAST if odd is None else odd
    says = [] if bad == LAST else [odd_line(record, bad)]
    return [f"record {where}, whose byte {LAST} is {called(record[LAST])}:", *as_bytes(record, bad), *says, *line_faults(records, where)]


def no_kind(records, where, _):
    record = records[where]
    return [f"record {where}, whose byte 0 is {called(record[0])} and not one of {', '.join(KINDS)}:", *as_bytes(record, 0), *line_faults(records, where)]


def misspelled(records, where, bad):
    if not 0 < bad < LAST:
        raise ValueError(f"no byte of a field: {bad}")
    thing = item(records, where)
    field, place = (bad - 1) // WIDTH + 1, (bad - 1) % WIDTH
    text, says = field_of(thing.bytes, field), format_of(thing, field)
    may = [words for before, words in MAY_STAND if re.fullmatch(before, text[:place])]
    return [
        f"{named(thing)}:",
        *as_bytes(thing.bytes, bad),
        f"byte {bad} is {called(thing.bytes[bad])}, the {ORDINALS[place]} byte of field {field}: {spelled(text)}",
        *(f"there may stand: {words}" for words in may),
        *([f"field {field} holds: {says}"] if says else []),
        *line_faults(records, where),
    ]


def of_field(records, where, field):
    thing = item(records, where)
    return [shown(thing)] + field_lines(thing, field)


def too_late(records, where, _):
    return [shown(item(records, where)), f"before it stands {shown(item(records, where - 1))}", ORDER]


def too_many(records, where, _):
    thing = item(records, where)
    if thing.kind == WEIGHTS:
        return [shown(thing), f"before it stands {shown(items(records, WEIGHTS)[0])}"]
    return [shown(thing), f"before it stand {counted(thing.number, thing.kind)}"]


def not_there(records, where, field):
    thing = item(records, where)
    marks = [marks_line(thing)] if (thing.kind, field) == ("place", MARKS) else []
    return of_field(records, where, field) + marks + [f"before it stand {holding(records[:where])}"] + below_lines(records, thing, field)


def unfinished(records, where, _):
    places = items(records, "place")
    lines = [f"the case has {counted(where, 'record')}: {holding(records)}"]
    if not items(records, "sentence"):
        lines.append("it has no sentence")
    if not places:
        lines.append("it has no place")
    elif not endless(places):
        lines.append(f"no place begins an endless loop: one with field {PLACES} filled and field {ROUNDS} blank")
    for loop in endless(places):
        if int(loop.words[PLACES]) > len(places) - loop.number:
            lines += [f"the endless loop begins with {shown(loop)}", f"it goes from {span(loop)}, and the case ends with place {places[-1].number}"]
    return lines


def misplaced(records, where, field):
    place, before = item(records, where), items(records[:where], "place")
    if field == 0:
        loop = endless(before)[0]
        return [shown(place), f"the endless loop begins with {shown(loop)}", f"it goes from {span(loop)}"]
    lines = [shown(place), f"field {field} is {place.words[field]}: its loop would go from {span(place)}"]
    return lines + [f"the loop before it goes from {span(loop)}, and begins with {shown(loop)}" for loop in loops(before)[-1:]]


def way_in_wrong(records, where, field):
    place = item(records, where)
    return [shown(place), f"field {field}, {MOVE_IN}, is {place.words[field] or 'blank'}"]


def no_such_loop(records, where, _):
    there = len(counted_loops(records))
    if where < there:
        raise ValueError(f"a loop with rounds: {where}")
    numbers = {0: "", 1: ": loop 0"}.get(there, f": loop 0 to loop {there - 1}")
    lines = [f"the plan has {counted(there, 'counted loop')}{numbers}"]
    if where > there:
        return lines + [f"there is no loop {where}"]
    return lines + [f"loop {where} is the endless one, and begins with {shown(endless(items(records, 'place'))[0])}"]


def wrong_start(records, where, _):
    place = items(records, "place")[where]
    return [shown(place), f"its state is {shown(items(records, 'state')[int(place.words[STATE])])}"]


def unconnected(records, where, what):
    places, move = items(records, "place"), items(records, "move")[what]
    place = places[where]
    lines = [shown(place), shown(move), f"move {what} leads from state {move.words[LEAVES]} to state {move.words[COMES]}"]
    for words, before, number in ways(places, place):
        if number == what:
            lines.append(f"as {words} it comes from {shown(before)}")
            lines.append(f"so it must lead from state {before.words[STATE]} to state {place.words[STATE]}")
    return lines


def guard_fails(records, where, what):
    places, moves = items(records, "place"), items(records, "move")
    place = places[where]
    lines = [shown(place), shown(items(records, "guard")[what])]
    for words, before, number in ways(places, place):
        never = words == BACK_MOVE and place.words[ROUNDS] == "1"  # a loop of 1 round never goes back
        if str(what) in moves[number].words[GUARDS] and not never:
            lines.append(shown(moves[number]))
            lines.append(f"move {number} has guard {what}, and is {words}, from place {before.number} to place {where}")
    return lines + start_lines(records)


def wrong_mark(records, where, what):
    place, sentence = items(records, "place")[where], items(records, "sentence")[what]
    how = "is marked, and is false" if what in marked(place) else "isn't marked, and is true"
    lines = [shown(place), shown(sentence), marks_line(place), f"sentence {what} {how} at one of the place's moments"]
    return lines + guard_lines(records, sentence) + ["./plantool fill FILE gives the right marks, where there are any"]


def root_unmarked(records, where, what):
    place = items(records, "place")[where]
    return [shown(place), f"the root is {shown(items(records, 'sentence')[what])}", marks_line(place)]


def changing(records, where, what):
    places, sentence = items(records, "place"), items(records, "sentence")[what]
    [(number, loop)] = [(number, loop) for number, loop in enumerate(loops(places)) if loop.number <= where <= last_of(loop)]
    lines = [shown(places[where]), shown(sentence), *guard_lines(records, sentence)]
    if not loop.words[ROUNDS]:
        return lines + [f"place {where} is in loop {number}, the endless one, which begins with {shown(loop)}", "only a counted loop can be cut in two"]
    return lines + [
        f"place {where} is in loop {number}, of {loop.words[ROUNDS]} rounds, which begins with {shown(loop)}",
        f"tools/case cut FILE {number} M puts two loops in its place, of M rounds and of the others, which can have different marks; FILE is in the short notation",
    ]


# What each result means, and the function that gives what its line names.
NAMES = {
    0: ("the plan is accepted: it is a run, its marks are right, and the root is true at the start", accepted),
    11: ("the file ends before the record does", too_short),
    12: ("the record's last byte is no line feed", no_line_feed),
    13: ("the record's first byte is no letter of a kind", no_kind),
    14: ("a field is neither blank nor a number in its one spelling", misspelled),
    15: ("a field is blank that is needed, or one is filled that isn't listed", of_field),
    16: ("a number is too small or too large for its field", of_field),
    21: ("records of a later kind have come already", too_late),
    22: ("there are as many of this kind as there may be", too_many),
    23: ("a field names or marks an item that isn't there", not_there),
    24: ("the case isn't finished: no sentence, or no complete endless loop", unfinished),
    25: ("the endless loop is complete and a place follows, or a loop begins inside another or ends behind place 63", misplaced),
    26: ("place 0 has a move into it, or a later place has none", way_in_wrong),
    27: ("the loop is absent, or endless and so without rounds", no_such_loop),
    31: ("the plan begins in another state than 0", wrong_start),
    32: ("a move doesn't fit the states of its two places", unconnected),
    33: ("a guard is false when its move is taken to the place", guard_fails),
    34: ("a mark of the place is wrong at one of its moments", wrong_mark),
    35: ("place 0 has no mark for the root", root_unmarked),
    37: ("no mark is right in all rounds: the sentence is true at one moment of the place and false at another", changing),
}


def words_of(result):
    """What a result means."""
    return NAMES[result][0]


# ---- what words of plantool say another way: lines, of the records, the line's second and third number, and the numbers that were asked for


def filled(_records, count, _):
    return [f"the marks are right now, and {counted(count, 'byte')} of a case file follow"]


def rounds_words(loop, least, greatest):
    """How many rounds a loop may have."""
    return f"loop {loop} may have {f'{least} to {greatest} rounds' if least < greatest else f'no other number of rounds than {least}'}"


def rounds_found(records, least, greatest, loop):
    return [rounds_words(loop, least, greatest), f"it begins with {shown(counted_loops(records)[loop])}"]


def rounds_set(records, count, _, loop, rounds):
    return [
        f"loop {loop} has {counted(rounds, 'round')} now, and {counted(count, 'byte')} of a case file follow",
        f"it began with {shown(counted_loops(records)[loop])}",
    ]


def out_of_range(records, where, field, _loop, rounds):
    thing = item(records, where)
    if not in_range(thing, field):  # it is of the record by itself
        return [words_of(16), *of_field(records, where, field)]
    return [
        words_of(16),
        f"asked for were {rounds} rounds, and a loop may have {range_of(thing, field)}",
        f"they would stand in field {field} of {shown(thing)}",
    ]


WORDED = {("fill", 0): filled, ("rounds", 0): rounds_found, ("set", 0): rounds_set, ("set", 16): out_of_range}


# ---- a line in words


def explained(text, line, asked=()):
    """The line of a case file as a program printed it, what its result means, and what it names: lines. What was asked for is a word of plantool with its
    numbers; nothing is judging."""
    records = cut(text)
    try:
        result, where, what = map(int, line.split())
        if says := WORDED.get((*asked[:1], result)):
            return [line, *says(records, where, what, *asked[1:])]
        words, names = NAMES[result]
        notation = [IS_NOTATION] if 11 <= result <= 14 and reads(text) else []
        return [line, words, *notation, *names(records, where, what)]
    except (LookupError, ValueError):
        raise Refused(f"the line {line:.80} doesn't fit the case") from None
