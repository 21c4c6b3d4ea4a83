"""The usual slips in the form of a line (refusal 2): what is wrong with it, in words, and the line as it was probably meant."""

import re
import shlex
import unicodedata
from typing import NamedTuple

from .fields import decimal, identifier, number_of_name, start
from .texts import KINDS, characters

FORMS = {
    "M": "An M line has M and the message's identifier:\n\n    M\t18FF21F3",
    "S": "An S line has S, the signal's number and its start, which is the frame bit of its lowest bit (0 to 63: 8 x byte + bit):\n\n    S\t203\t16",
    "R": "An R line has R, the bus and identifier that a frame comes with, and those that it goes out with:\n\n    R\t0\t18FF21F3\t1\t18FF21F3",
}
PARTED = "Fields are parted by exactly one tab, and a line has no space anywhere."
SAVE = "Save it as plain text (UTF-8 or ASCII, without a byte order mark)"


class Slips(NamedTuple):
    """[(name, words)] of what is wrong, and the line put right, as far as that can be told."""

    words: list
    meant: str

    def names(self):
        return [name for name, _ in self.words]


# ---- of the whole file


def of_file(book):
    """The paragraphs on a slip that makes the whole file unreadable as a book, if there is one."""
    text, file = book.text, shlex.quote(book.name)
    if text[:4] in (b"\xff\xfe\0\0", b"\0\0\xfe\xff"):
        return [f"The file is saved as UTF-32 (four bytes for each character). {SAVE}, or:", f"    iconv -f UTF-32 -t UTF-8 {file} > NEW"]
    few = text[:64]
    if text[:2] in (b"\xff\xfe", b"\xfe\xff") or (len(text) > 3 and 0 in text[:2] and few.count(0) >= len(few) // 3):
        order = "" if text[:2] in (b"\xff\xfe", b"\xfe\xff") else "LE" if text[0] else "BE"
        words = "The file is saved as UTF-16 (two bytes for each character; editors call it 'Unicode'). " + SAVE
        return [words + ", or:", f"    iconv -f UTF-16{order} -t UTF-8 {file} > NEW"]
    if b"\r" in text and b"\n" not in text:
        return ["The lines end with a carriage return alone, as on very old machines. Save the file with plain newlines (LF)."]
    return []


# ---- of a line, from the outside in: each step notes what it finds and gives the line without it


def plain_text(line, found):
    """Plain ASCII characters, without what should not be at the ends of a line."""
    text = characters(line)
    if text.startswith("\ufeff"):
        found.append(("a byte order mark", f"The file begins with a byte order mark, which editors don't show. {SAVE}."))
    if text.endswith("\r"):
        found.append(("CR LF", "The line ends with a carriage return and a newline (CR LF, the Windows kind). Save the file with plain newlines (LF, the Unix kind)."))
    text = text.removeprefix("\ufeff").rstrip("\r\n")
    if any(unicodedata.category(character) == "Cc" and character != "\t" for character in text):
        found.append(("control characters", "It has control characters, shown in angle brackets, which are no part of any field."))
    plain = unicodedata.normalize("NFKC", text)
    if odd := [character for character in plain if ord(character) > 126]:
        name = unicodedata.name(odd[0], f"U+{ord(odd[0]):04X}")
        found.append(("other characters", f"It has characters that are no plain ASCII ones, the first {name} at column {plain.index(odd[0]) + 1}. Type them anew."))
    elif plain != text:
        found.append(("look-alike characters", "It has characters that only look like plain ones (full-width digits, say, or other blanks). Type them anew."))
    return re.sub(r"[\x00-\x08\x0b-\x1f\x7f]", "", plain)


def without_comment(text, found):
    if re.search(r"\S\s+(#|//).*", text):
        found.append(("a comment", "A book has no comments: strike what stands behind the line."))
    return re.sub(r"(\S)\s+(#|//).*", r"\1", text)


def parted(text, found):
    """The fields, however they are parted."""
    if re.search("[\"'`\u201c\u201d\u2018\u2019]", text):
        found.append(("quotes", "Fields are written without quotes."))
    text = re.sub("[\"'`\u201c\u201d\u2018\u2019]", "", text)
    if re.search(r"[,;|]", text):
        found.append(("commas", "Fields are parted by one tab, not by commas or semicolons."))
    if " " in text:
        found.append(("spaces", f"It has spaces. {PARTED} Some editors write spaces for the tab key."))
    if re.search(r"\t[ \t]*\t|^[ \t]*\t|\t[ \t]*$", text):
        found.append(("tabs too many", "It has a tab too many: one stands between two fields, none before the first and none after the last."))
    return [field for field in re.split(r"[\s,;|]+", text) if field]


def read_fields(kind, fields, found):
    """The fields as they were probably meant, or nothing where one can't be told."""
    if kind == "S":
        number = decimal("signal number", number_of_name(fields[0], found), found)
        return [number, start(fields[1], found)]
    return [identifier(field, found) if form == "I" else decimal("bus", field, found) for form, field in zip(KINDS[kind], fields)]


def of_line(line):
    """The slips of one line, without its newline."""
    found = []
    text = plain_text(line, found)
    if re.match(r"\s*(#|//|--)", text):
        return Slips([*found, ("a comment", "A book has no comments. Strike the line.")], "")
    fields = parted(without_comment(text, found), found)
    if not fields:
        return Slips([*found, ("an empty line", "The line is empty. Strike it: a book has no empty lines, at its end neither.")], "")
    kind = fields[0].upper()
    if kind not in KINDS:
        found.append(("the kind", "A line begins with M (a message), S (a signal in it) or R (a route), and a tab. A book has no headings and no notes."))
        return Slips(found, "")
    if kind != fields[0]:
        found.append(("a small letter", f"The kind of line is a capital: {kind}."))
    if len(fields) != len(KINDS[kind]) + 1:
        found.append(("fields", f"It has {len(fields)} fields and needs {len(KINDS[kind]) + 1}."))
        return Slips(found, "")
    meant = read_fields(kind, fields[1:], found)
    return Slips(list(dict.fromkeys(found)), "\t".join([kind, *meant]) if all(meant) else "")


def form_of(line):
    """How a line of this kind is written, as far as the kind can be told."""
    first = re.match(r"\W*([MSR])\b", characters(line), re.IGNORECASE)
    return [FORMS[first[1].upper()]] if first else list(FORMS.values())

