"""Certificates as trees whose objects may have a key twice: read from what `certify` writes, changed, and written again."""

import json

NUMBERS = ["0", "1", "-1", "1/2", "-1/2", "3/4", "2", "1/3", "99999999/100000000", "170141183460469231731687303715884105727",
           "1/170141183460469231731687303715884105727"]
NO_NUMBERS = ["", "1/0", "0x1", "1e99999", "170141183460469231731687303715884105728", " 1", "+", "1_0"]
VALUES = [None, True, 0, 1, -1, 0.5, 2**32, [], {}, "finite", "infinite", "*", "+-", "ray", "quantreg-certificate"]


class Object(list):
    """An object of JSON: its keys with their values, in the order of the text."""


def in_full(certificate):
    """The certificate of version 1 that says what one of version 2 says: each later segment in full."""
    segments = certificate["segments"]
    for before, later in zip(segments, segments[1:]):
        sides = list(before["sides"])
        values = dict(zip([row for row, side in enumerate(sides) if side == "*"], before["basic_hi"]))
        for move in later.pop("moves"):
            sides[move["row"]], values[move["row"]] = move["side"], move.get("value")
        later |= {"lo": before["hi"], "loss_lo": before["loss_hi"], "sides": "".join(sides)}
        later["basic_lo"] = [values[row] for row, side in enumerate(sides) if side == "*"]
    return certificate | {"version": 1}


def tree(value):
    if isinstance(value, dict):
        return Object((key, tree(value[key])) for key in sorted(value))
    return [tree(item) for item in value] if isinstance(value, list) else value


def written(value):
    """The text of a tree, without blanks, as `certify` writes it."""
    if isinstance(value, Object):
        return "{" + ",".join(f"{json.dumps(key)}:{written(item)}" for key, item in value) + "}"
    if isinstance(value, list):
        return "[" + ",".join(map(written, value)) + "]"
    return json.dumps(value)


class Place:
    """A place in a tree: the list or the object, and the index there."""

    def __init__(self, within, at):
        self.within, self.at = within, at

    @property
    def key(self):
        return self.within[self.at][0] if isinstance(self.within, Object) else None

    @property
    def value(self):
        return self.within[self.at][1] if isinstance(self.within, Object) else self.within[self.at]

    def put(self, value):
        self.within[self.at] = (self.key, value) if isinstance(self.within, Object) else value


def places(value):
    for at in range(len(value)):
        place = Place(value, at)
        yield place
        if isinstance(place.value, list):
            yield from places(place.value)


def other_text(chance, place):
    """Another number where a number stands, now and then none; another side among sides, or two that change places."""
    text = place.value
    if place.key == "sides" and len(text) > 1 and chance.random() < 0.4:
        sides = list(text)
        one, other = chance.sample(range(len(sides)), 2)
        sides[one], sides[other] = sides[other], sides[one]
        place.put("".join(sides))
    elif place.key in ("sides", "side") and text:
        at = chance.randrange(len(text))
        place.put(text[:at] + chance.choice(["+", "-", "*", "", "++"]) + text[at + 1 :])
    elif chance.random() < 0.3 and text.lstrip("-").isdigit():
        place.put(str(int(text) + chance.choice([-1, 1])))
    else:
        place.put(chance.choice(NUMBERS * 2 + NO_NUMBERS))


def doubled_key(chance, place):
    """The key again, with the same value or another, before the first one or behind it."""
    others = [place.value, place.value, chance.choice(VALUES), chance.choice(NUMBERS), [], ["1"]]
    place.within.insert(place.at + chance.randrange(2), (place.key, chance.choice(others)))


def other_key(chance, place):
    match chance.randrange(3):
        case 0:
            del place.within[place.at]
        case 1:
            place.within[place.at] = (chance.choice([place.key + "x", "", "x", "kind", "a/b~", "é"]), place.value)
        case 2:
            place.within.append((chance.choice(["x", "zz", "lo", "value"]), chance.choice(VALUES)))


def other_item(chance, place):
    match chance.randrange(3):
        case 0:
            del place.within[place.at]
        case 1:
            place.within.insert(place.at, place.value)
        case 2:
            at = chance.randrange(len(place.within))
            place.within[at], place.within[place.at] = place.within[place.at], place.within[at]


def named(top, key):
    """The first place of a key; the change before may have taken it away."""
    return next((place for place in places(top) if place.key == key), None)


def other_version(chance, top):
    if (version := named(top, "version")) is not None:
        version.put(chance.choice([1, 2, 3, 0, "1", -1, 1.0, 2**64]))


def large(chance, top):
    """More columns than may be, or more rows."""
    columns, rows = named(top, "columns"), named(top, "rows")
    if chance.random() < 0.9:
        if columns is not None:
            columns.put(chance.choice([129, 2**32 - 1]))
    elif rows is not None:
        row = rows.value if isinstance(rows.value, list) and rows.value else [Object()]
        rows.put(row[:1] * 16385)


def changed(chance, top):
    """One change of a tree."""
    kind = chance.choices(["text", "doubled", "key", "item", "value", "version", "large"], [9, 4, 3, 3, 2, 1.5, 1.5])[0]
    found = list(places(top))
    objects = [place for place in found if isinstance(place.within, Object)]
    texts = [place for place in found if isinstance(place.value, str)]
    match kind:
        case "text" if texts:
            other_text(chance, chance.choice(texts))
        case "doubled" if objects:
            doubled_key(chance, chance.choice(objects))
        case "key" if objects:
            other_key(chance, chance.choice(objects))
        case "item" if len(found) > len(objects):
            other_item(chance, chance.choice([place for place in found if not isinstance(place.within, Object)]))
        case "value" if found:
            chance.choice(found).put(tree(chance.choice(VALUES)))
        case "version" if isinstance(top, Object):
            other_version(chance, top)
        case "large" if isinstance(top, Object):
            large(chance, top)


def drawn(chance, text):
    """The text of a certificate of either version, as it stands or after one or two changes."""
    certificate = json.loads(text)
    top = tree(in_full(certificate) if chance.random() < 0.4 else certificate)
    for _ in range(chance.choices([0, 1, 2], [30, 55, 15])[0]):
        changed(chance, top)
    return written(top).encode() + b"\n"
