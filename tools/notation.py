"""The short notation of case files: `spell` turns it into a case file, `show` turns a case file back. Neither takes one for the other.
tools/case has the rules of the notation."""
import re
import unicodedata

KINDS = {"S": "state", "W": "weights", "G": "guard", "T": "move", "F": "sentence", "P": "place"}
FIELDS = 8
WIDTH = 7
LENGTH = 1 + FIELDS * WIDTH + 1
BLANK = "."
NUMBER = re.compile("0|-?[1-9][0-9]*")
FAULTS = [
    ("[+]", "has a plus sign"),
    (",", "has a comma"),
    ("[.]", "has a point"),
    ("`", "has a backquote"),
    ("/", "has a slash (between records it needs a space on each side)"),
    (" ", "has a space that is not before the number"),
    ("^-0$", "is minus zero"),
    ("^-?0[0-9]+$", "has a leading zero"),
]
# Characters that aren't of the notation and are taken for ones that are, by what they are called; and marks in front of a text.
DASHES = "\u2010\u2011\u2012\u2013\u2014\u2212\ufe63\uff0d"
CONTROLS = {"\t": "a tab, and fields have spaces between them", "\r": "a carriage return, and lines end with a line feed alone"}
ORDER_MARKS = {"\xef\xbb\xbf": "UTF-8", "\xff\xfe": "UTF-16", "\xfe\xff": "UTF-16"}
IS_CASE_FILE = "is a record of a case file, and not of the short notation: tools/case show turns a case file into that"
WAS_BLANK = f"{WIDTH} spaces or more between its fields, as where one of a case file is blank: in the notation a blank field is {BLANK}"
IS_NOTATION = "this is the short notation: tools/case spell turns it into a case file"


class Refused(Exception):
    """What can't be turned: where, and why."""


# ---- the two kinds of text


def is_column(text):
    """Whether the bytes of a field are blank, or a number set to the right."""
    return text == " " * WIDTH or bool(NUMBER.fullmatch(text.lstrip(" ")))


def in_columns(line):
    """Whether a line is the letter of a kind and eight columns, as a record of a case file is: one in the notation is so only where it was lined up."""
    return len(line) == LENGTH - 1 and line[0] in KINDS and all(is_column(field_of(line, number)) for number in range(1, FIELDS + 1))


def begins_in_columns(line):
    """The same of a line that may have lost its end: at least one column, not blank, and all that are whole."""
    columns = [field_of(line, number) for number in range(1, FIELDS + 1) if number * WIDTH < len(line)]
    return line[:1] in KINDS and "".join(columns).strip(" ") != "" and all(map(is_column, columns))


def reads(text):
    """Whether a text is in the short notation, as far as its first line that has a record shows: so that people can be told."""
    lines = list(filter(None, (line.split("#")[0].strip(" \r") for line in text.split("\n"))))
    if any(in_columns(line.ljust(LENGTH - 1)) for line in lines if line[1:]) or begins_in_columns("".join(lines[:1])):
        return False
    try:
        return spell("".join(lines[:1]))[1:].strip() != ""  # with a field, and not a letter alone
    except Refused:
        return False


# ---- from the notation to a case file


def check_kind(where, word):
    if word not in KINDS:
        raise Refused(f"{where}: the kind {ascii(word)} is none of {', '.join(KINDS)}")


def check_number(where, text):
    """Passes only a number in its one spelling, with spaces before it, that fits a field."""
    word = text.lstrip(" ")
    if not NUMBER.fullmatch(word):
        why = next((why for pattern, why in FAULTS if re.search(pattern, word)), "is no number")
        raise Refused(f"{where}: {ascii(text)} {why}")
    if len(word) > WIDTH:
        raise Refused(f"{where}: {ascii(text)} has {len(word)} characters, and a field has room for {WIDTH}")


def spell_record(where, words):
    kind, fields = words[0], words[1:]
    check_kind(where, kind)
    if len(fields) > FIELDS:
        raise Refused(f"{where}: {len(fields)} fields, and a record has {FIELDS}")
    for number, word in enumerate(fields, 1):
        if word != BLANK:
            check_number(f"{where}, field {number}", word)
    spelled = "".join(("" if word == BLANK else word).rjust(WIDTH) for word in fields)
    return kind + spelled.ljust(FIELDS * WIDTH) + "\n"


def what_is_odd(line):
    """What the first character of a line is that isn't of the notation; None where all are."""
    odd = re.search("[^ -~]", line)
    if not odd or odd[0] in CONTROLS:
        return odd and CONTROLS[odd[0]]
    character = line[odd.start():].encode("latin-1").decode("utf-8", "replace")[0]
    if character <= "\x7f" or character == "\ufffd":
        return f"the byte {ascii(odd[0])}, which isn't of the notation"
    name = f"U+{ord(character):04X}, {unicodedata.name(character, 'which has no name')}"
    if character in DASHES:
        return f"a typographic minus ({name}), and the minus is the hyphen of the keyboard"
    if unicodedata.digit(character, None) is not None:
        return f"a digit that is none of 0 to 9 ({name})"
    return f"a character that isn't of the notation ({name})"


def check_text(text):
    """Passes a text that may be in the notation: it has no byte order mark in front, and no line that is a record of a case file."""
    for mark, code in ORDER_MARKS.items():
        if text.startswith(mark):
            raise Refused(f"line 1: a byte order mark of {code} in front, and the notation begins with its first record")
    for number, line in enumerate(text.split("\n"), 1):
        if in_columns(line.rstrip("\r")):
            raise Refused(f"line {number} {IS_CASE_FILE}")


def hides_blank(part, pointed):
    """Whether a record has a gap between fields in which one may be blank, as in a case file: it stands in columns, or the text has no point for one."""
    return " " * WIDTH in part and (in_columns(part.ljust(LENGTH - 1)) or not pointed)


def spell(text):
    """The case file that the notation spells."""
    check_text(text)
    lines, records = [line.split("#")[0] for line in text.split("\n")], []
    pointed = any(BLANK in line.split() for line in lines)
    for number, line in enumerate(lines, 1):
        if odd := what_is_odd(line):
            raise Refused(f"line {number}: {odd}")
        if not line.strip(" "):
            continue
        for part in re.split("(?<= )/(?= )", f" {line} "):
            where = f"line {number}, record {len(records)}"
            if not part.strip(" "):
                raise Refused(f"line {number}: a slash without a record on each side")
            if hides_blank(part.strip(" "), pointed):
                raise Refused(f"{where}: {WAS_BLANK}")
            records.append(spell_record(where, part.split()))
    return "".join(records)


# ---- from a case file to the notation


def cut(text):
    """The records of a case file; the last may be too short."""
    return [text[start:start + LENGTH] for start in range(0, len(text), LENGTH)]


def field_of(record, number):
    """The text of a field, with its spaces."""
    return record[1 + (number - 1) * WIDTH:1 + number * WIDTH]


def show_record(where, record):
    if len(record) != LENGTH:
        raise Refused(f"{where}: {len(record)} bytes, and a record has {LENGTH}")
    if record[-1] != "\n":
        raise Refused(f"{where}: byte {LENGTH - 1} is {ascii(record[-1])}, not a line feed")
    check_kind(where, record[0])
    words = [record[0]]
    for number in range(1, FIELDS + 1):
        text = field_of(record, number)
        if text == " " * WIDTH:
            words.append(BLANK)
        else:
            check_number(f"{where}, field {number}", text)
            words.append(text.lstrip(" "))
    while words[-1] == BLANK:
        words.pop()
    return " ".join(words) + "\n"


def show(text):
    """The notation of a case file; only what `spell` turns back into the same bytes is shown."""
    try:
        return "".join(show_record(f"record {number}", record) for number, record in enumerate(cut(text)))
    except Refused as refused:
        raise Refused(IS_NOTATION) if reads(text) else refused
