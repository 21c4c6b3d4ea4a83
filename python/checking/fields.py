"""The usual slips in one field of a line. Each function notes what it finds, as (name, words), and gives the field as it was probably meant,
or nothing where that can't be told."""

import json
import re
from pathlib import Path

from .texts import seen

STANDARD = Path(__file__).resolve().parents[2] / "tools/standard.json"
LETTERS = ("letters for digits", "It has a letter O, I or l where a digit 0 or 1 belongs.")


def with_digits(field):
    """The field with digits for the letters that look like them."""
    return re.sub("[Oo]", "0", re.sub("[Iil|]", "1", field))


def identifier(field, found):
    digits = re.sub(r"^0x|[hx]$", "", field, flags=re.IGNORECASE)
    if "#" in digits:
        found.append(("a log's line", f"`{seen(field)}` is from a log: what stands behind # is a frame's content. Write the identifier alone."))
        digits = digits.partition("#")[0]
    if not re.fullmatch("[0-9A-Fa-f]+", digits) and re.fullmatch("[0-9A-Fa-f]+", with_digits(digits)):
        found.append(LETTERS)
        digits = with_digits(digits)
    if not re.fullmatch("[0-9A-Fa-f]+", digits):
        found.append(("no identifier", f"`{seen(field)}` is no identifier: it has to have eight digits 0 to 9, A to F."))
        return ""
    if digits != field and re.match(r"0x|.*[hx]$", field, re.IGNORECASE):
        found.append(("0x", "An identifier is written without `0x` before it, and without `h` or `x` behind it."))
    if digits != digits.upper():
        found.append(("small letters", "The digits A to F are written as capitals."))
    if len(digits) == 8:
        return digits.upper()
    found.append(("not eight digits", f"An identifier has eight digits, and `{seen(field)}` has {len(digits)}. {why_not_eight(digits)}"))
    return ""


def why_not_eight(digits):
    if len(digits) < 4:
        return "Zeros in front are written too. An 11-bit identifier is another frame than the 29-bit one with zeros in front."
    if len(digits) < 8:
        return "Is a digit missing? Zeros in front are written too."
    if digits.isdecimal() and int(digits) < 2**29:
        return f"If it is a decimal number, it is {int(digits):08X}."
    return "Is a digit too many?"


def decimal(what, field, found):
    number = field
    if not field.isdecimal() and re.fullmatch(r"\+?\d+", with_digits(field)):
        number = with_digits(field)
        found += [LETTERS] if number != field else []
    if not re.fullmatch(r"\+?[0-9]+", number):
        found.append(("no number", f"`{seen(field)}` is no {what}: that is a number of one to five decimal digits, without a sign."))
        return ""
    if number.startswith("+"):
        found.append(("a sign", "A number is written without a sign."))
        number = number[1:]
    if number != "0" and number.startswith("0"):
        found.append(("zeros in front", "A number is written without zeros in front (but an identifier has eight digits)."))
    number = number.lstrip("0") or "0"
    if len(number) > 5:
        found.append(("six digits", "A number has five digits at most."))
        return ""
    return number


def start(field, found):
    """A start, which people write as byte and bit too."""
    if parts := re.fullmatch(r"(\d)[.:/](\d)", field):
        byte, bit = (int(part) for part in parts.groups())
        found.append(("byte and bit", f"`{field}` is no start: that is a frame bit, 0 to 63. If it is byte {byte}, bit {bit}, write {8 * byte + bit}."))
        return ""
    return decimal("start", field, found)


def number_of_name(field, found):
    """The number of a signal that is given by its name in the standard."""
    if field[:1].isdecimal():
        return field
    with open(STANDARD, encoding="utf-8") as file:
        signals = json.load(file)["signals"]
    numbers = [str(entry["number"]) for entry in signals if entry["name"].lower() == field.lower()]
    if numbers:
        found.append(("a name", f"A signal is named by its number: {field} is {' and '.join(numbers)}."))
    return numbers[0] if len(numbers) == 1 else field
