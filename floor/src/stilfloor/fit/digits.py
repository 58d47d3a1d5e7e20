"""Hexadecimal and decimal digits as waveform characters."""

import re

from stilfloor.fit.data_rules import Cursor, DataStop, Rules, note, short
from stilfloor.fit.signals import Attributes

HEX = re.compile(r"[0-9A-Fa-f]+")
DECIMAL = re.compile(r"[0-9]+")


def base(cursor: Cursor, word: str, behind: int) -> None:
    """The characters of a `\\h` or `\\d`: those that stand with it, else those of Base, else 0 and 1."""
    rest = word[1:]
    follows = behind < len(cursor.tokens) and cursor.tokens[behind] not in ("\\", "#", "%")
    cursor.base = cursor.attributes.base if cursor.attributes and cursor.attributes.base else "01"
    if rest and follows:
        cursor.base = rest
    elif rest:
        cursor.digits += rest


def digits_at(cursor: Cursor, place: int) -> int:
    cursor.digits += cursor.tokens[place]
    return place + 1


def convert(rules: Rules, cursor: Cursor, is_argument: bool, is_mixed: bool = False) -> None:
    """Writes gathered digits as characters; of mixed data other characters stand beside them."""
    is_mixed = is_mixed or bool("".join(cursor.pieces).strip())
    digits, cursor.digits = "".join(cursor.digits), []
    if not (HEX if cursor.mode == "h" else DECIMAL).fullmatch(digits):
        raise DataStop(f"`{short(digits)}` isn't a number of `\\{cursor.mode}`")
    if cursor.members is None:
        raise DataStop("how many signals these digits are for isn't known")
    width = bits_of(cursor.base)
    have = len(digits) * 4 // width if cursor.mode == "h" else 0
    wanted = have if is_mixed else _wanted(rules, cursor, have, is_argument)
    if is_mixed and (not have or have * width != len(digits) * 4):
        raise DataStop(f"`\\{cursor.mode}` stands beside other data here, and how many characters it is for isn't known")
    bits = _hex_bits(digits, wanted * width, cursor.attributes) if cursor.mode == "h" else _decimal_bits(digits, wanted * width)
    text = _from_bits(bits, width, cursor.base)
    note(cursor, f"`\\{cursor.mode} {short(digits)}` written `{short(text)}`", "the same digits in binary, by Base, Alignment and DataBitCount")
    cursor.pieces.append("".join(rules.renamed.get(character, character) for character in text))


def bits_of(base: str) -> int:
    """How many bits stand for one of these characters."""
    if len(base) < 2 or len(set(base)) != len(base):
        raise DataStop(f"the characters `{base}` of this Base are no two or more different ones")
    return (len(base) - 1).bit_length()


def _wanted(rules: Rules, cursor: Cursor, have: int, is_argument: bool) -> int:
    """How many characters digits stand for."""
    members = cursor.members or ()
    made = cursor.attributes
    if not is_argument:
        return len(members)
    if have and have == len(members) > 1:
        return have
    if made and made.bits:
        return made.bits
    if len(members) == 1:
        length = rules.lengths.get(members[0], 0)
        if not length and cursor.mode == "d" or length and have != length and not (made and made.alignment):
            raise DataStop("how many characters these digits are for isn't known: the signal has no DataBitCount")
        return length or have
    if have and len(members) > 1 and have - len(members) >= 4:
        if have % len(members):
            raise DataStop("these digits are for no whole number of characters a signal")
        return have
    return len(members)


def _hex_bits(digits: str, wanted: int, made: Attributes | None) -> str:
    """The bits of hexadecimal digits, as many as are wanted; others than zeros are left off only where an Alignment says at which end."""
    bits = "".join(f"{int(digit, 16):04b}" for digit in digits)
    if len(bits) == wanted:
        return bits
    alignment = made.alignment if made else ""
    if len(bits) < wanted or alignment not in ("MSB", "LSB"):
        raise DataStop(f"these {len(digits)} hexadecimal digits are {len(bits)} bits for {wanted}, and no Alignment says which of them count"
                       if len(bits) > wanted else f"these {len(digits)} hexadecimal digits are {len(bits)} bits, and {wanted} are wanted")
    return bits[:wanted] if alignment == "MSB" else bits[len(bits) - wanted :]


def _decimal_bits(digits: str, wanted: int) -> str:
    """The bits of a decimal number."""
    if len(digits) > 4000 or int(digits).bit_length() > wanted:
        raise DataStop(f"the number {short(digits)} has more than the {wanted} bits that are wanted")
    return bin(int(digits))[2:].rjust(wanted, "0")


def _from_bits(bits: str, width: int, base: str) -> str:
    """The characters that bits stand for."""
    numbers = [int(bits[place : place + width], 2) for place in range(0, len(bits), width)]
    if max(numbers, default=0) >= len(base):
        raise DataStop(f"these digits have a value for which Base `{base}` has no character")
    return "".join(base[number] for number in numbers)


def by_base(rules: Rules, cursor: Cursor, is_argument: bool) -> None:
    """Data without a flag that fit by the Base of their signals alone."""
    bare = not any(text == "\\" for text in cursor.tokens)
    made = cursor.attributes
    if bare and made and made.base and made.radix in ("Hex", "Dec") and cursor.members and len(cursor.members) > 1 and not is_argument:
        text = "".join(cursor.tokens)
        if len(text) != len(cursor.members) and (HEX.fullmatch(text) if made.radix == "Hex" else text.isdigit()):
            cursor.mode, cursor.base, cursor.digits, cursor.pieces = made.radix[0].lower(), made.base, list(text), []
            convert(rules, cursor, is_argument)
