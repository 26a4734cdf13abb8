"""A counted loop of a plan cut in two, in the short notation. tools/case has its rules, and docs/FORMAT.md those of a plan."""
from explain import BACK, INTO, PLACES, ROUNDS
from notation import BLANK, FIELDS, Refused, show, spell

PLACE = "P"
ROOM = 64
# The fields of a counted loop's first place that are read here, and what each may hold.
RANGES = {PLACES: (1, ROOM), ROUNDS: (1, 1_000_000), BACK: (0, 63)}


def records_of(text):
    """The records that the notation spells, each with its letter and all its fields."""
    return [(line.split() + [BLANK] * FIELDS)[:1 + FIELDS] for line in show(spell(text)).splitlines()]


def notation_of(records):
    """The notation of records, as `show` writes it."""
    return show(spell("\n".join(map(" ".join, records))))


def first_of(places, loop):
    """The number of the place that begins a counted loop."""
    begins = [number for number, place in enumerate(places) if place[PLACES] != BLANK]
    if loop >= len(begins):
        raise Refused(f"there is no loop {loop}: the plan has {len(begins)}, numbered from 0")
    if places[begins[loop]][ROUNDS] == BLANK:
        raise Refused(f"loop {loop} is endless: only a counted loop can be cut")
    return begins[loop]


def number_in(place, loop, field):
    """The number in a field of a loop's first place, where a loop may have it: rounds out of range could be two numbers in range when cut."""
    word, (least, most) = place[field], RANGES[field]
    if word == BLANK or not least <= int(word) <= most:
        raise Refused(f"loop {loop}: field {field} is {'blank' if word == BLANK else word}, not {least} to {most}")
    return int(word)


def cut_loop(text, loop, after):
    """The notation with a counted loop as two, one after the other: the first has so many of its rounds, the second the others."""
    records = records_of(text)
    at = [number for number, record in enumerate(records) if record[0] == PLACE]
    places = [records[number] for number in at]
    first = first_of(places, loop)
    length, rounds, back = (number_in(places[first], loop, field) for field in RANGES)
    there = places[first:first + length]
    if len(there) < length:
        raise Refused(f"loop {loop} has {length} places, and the plan ends after {len(there)} of them")
    if rounds == 1:
        raise Refused(f"loop {loop} has 1 round: it can't be cut")
    if not 1 <= after < rounds:
        raise Refused(f"loop {loop} has {rounds} rounds: it can be cut after 1 to {rounds - 1} of them")
    if len(places) + length > ROOM:
        raise Refused(f"the plan would have {len(places) + length} places, and there is room for {ROOM}")
    again = [place.copy() for place in there]
    there[0][ROUNDS], again[0][ROUNDS], again[0][INTO] = str(after), str(rounds - after), str(back)
    behind = at[first + length - 1] + 1
    return notation_of(records[:behind] + again + records[behind:])
