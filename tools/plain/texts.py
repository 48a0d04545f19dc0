"""JSON texts as trees, their compact spelling, and money, as docs/FORMATS.md has them. Plain and slow."""
import decimal
import json
from fractions import Fraction


class Number(str):
    """A number, by its text."""


class Object(list):
    """Members in their order, of which the last of a name counts, in its own place."""

    def get(self, name):
        found = [value for key, value in self if key == name]
        return found[-1] if found else Absent


class Absent:
    """What a member is that isn't there."""


def _members(pairs):
    last = {key: place for place, (key, _) in enumerate(pairs)}
    return Object((_text(key), value) for place, (key, value) in enumerate(pairs) if last[key] == place)


def _text(text):
    """Surrogates without a partner stand for U+FFFD."""
    return ''.join('\ufffd' if 0xd800 <= ord(letter) < 0xe000 else letter for letter in text)


def _clean(tree):
    if isinstance(tree, Number):
        return tree
    if isinstance(tree, str):
        return _text(tree)
    if isinstance(tree, Object):
        return Object((name, _clean(value)) for name, value in tree)
    if isinstance(tree, list):
        return [_clean(value) for value in tree]
    return tree


def _none(text):
    raise ValueError(text)


def read(data):
    """The tree of a JSON text; ValueError where it is none. Which byte is at fault isn't said."""
    text = data.decode('utf-8')
    return _clean(json.loads(text, object_pairs_hook=_members, parse_int=Number, parse_float=Number, parse_constant=_none))


SHORT = {'"': '\\"', '\\': '\\\\', '\b': '\\b', '\t': '\\t', '\n': '\\n', '\f': '\\f', '\r': '\\r'}


def spell_text(text):
    return '"' + ''.join(SHORT.get(c, c if ord(c) >= 32 else '\\u%04x' % ord(c)) for c in text) + '"'


def spell(tree):
    """The compact spelling."""
    if tree is None:
        return 'null'
    if tree is True or tree is False:
        return 'true' if tree else 'false'
    if isinstance(tree, Number):
        return str(tree)
    if isinstance(tree, str):
        return spell_text(tree)
    if isinstance(tree, Object):
        return '{' + ','.join(spell_text(name) + ':' + spell(value) for name, value in tree) + '}'
    return '[' + ','.join(map(spell, tree)) + ']'


def _value(text):
    """The value of a number's text; a great exponent is cut, since it is above or below all limits."""
    mantissa, _, exponent = text.lower().partition('e')
    places = max(-400, min(400, int(exponent))) if exponent else 0
    return Fraction(decimal.Decimal(mantissa)) * Fraction(10) ** places


def price(tree):
    """The units of a price, rounded down; None where it is refused."""
    if not isinstance(tree, Number) or tree.startswith('-'):
        return None
    units = int(_value(tree) * 10**6)
    return units if 1 <= units <= 10**12 else None


def floor(tree):
    """The units of a floor, rounded up; None where it is refused."""
    if not isinstance(tree, Number) or _value(tree) < 0:
        return None
    units = -int(-_value(tree) * 10**6 // 1)
    return units if units <= 10**12 else None


def budget(tree):
    """The units of a budget, exact; None where it is refused."""
    if not isinstance(tree, Number) or tree.startswith('-'):
        return None
    units = _value(tree) * 10**9
    return int(units) if units.denominator == 1 and 1 <= units <= 10**15 else None


def whole(tree, limit):
    """A whole number below the limit; None where it is none."""
    return int(tree) if isinstance(tree, Number) and tree.isdigit() and len(tree) <= 20 and int(tree) < limit else None


def moment(tree):
    return int(tree) if isinstance(tree, Number) and tree.isdigit() and len(tree) <= 15 else None
