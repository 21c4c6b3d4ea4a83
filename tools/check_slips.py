"""Books as people break them, for tools/check_test.py: a text, the line and refusal, what the words have to say, and the line as it was
meant where that can be told."""

from book_vectors import GOOD, M, R, S, signals

ROUTES = [R(0, i, 1, i) for i in range(70)]


def instead(old, new):
    """The good book with something else in the place of something."""
    assert GOOD.count(old) >= 1
    return GOOD.replace(old, new, 1).encode()


# ---- refusal 2: the usual slips

SLIPS = [
    (GOOD.replace("\n", "\r\n").encode(), 1, ["CR LF", "plain newlines", "Also with CR LF: lines 2, 3, 4, 5."], None),
    (b"\xef\xbb\xbf" + GOOD.encode(), 1, ["byte order mark"], None),
    (GOOD.encode("utf-16"), 1, ["UTF-16", "iconv -f UTF-16 -t UTF-8"], None),
    (GOOD.encode("utf-16-le"), 1, ["iconv -f UTF-16LE -t UTF-8"], None),
    (GOOD.encode("utf-16-be"), 1, ["iconv -f UTF-16BE -t UTF-8"], None),
    (GOOD.encode("utf-32"), 1, ["UTF-32", "iconv -f UTF-32 -t UTF-8"], None),
    (GOOD.replace("\n", "\r").encode(), 1, ["carriage return alone"], None),
    (instead("S\t203", "S 203"), 2, ["spaces"], "S\t203\t0"),
    (GOOD.replace("\t", "    ").encode(), 1, ["spaces", "Also with spaces: lines 2, 3, 4, 5."], "M\t18FF21F3"),
    (instead("S\t203", "S\t203 "), 2, ["spaces"], "S\t203\t0"),
    (instead("S\t203", "S\u00a0203"), 2, ["only look like"], "S\t203\t0"),
    (instead("203", "\uff12\uff10\uff13"), 2, ["only look like"], "S\t203\t0"),
    (instead("M\t", "\u041c\t"), 1, ["CYRILLIC CAPITAL LETTER EM at column 1"], None),
    (b"M,18FF21F3,,\r\nS,203,0,\r\n,,,\r\n", 1, ["commas", "Also with commas: lines 2, 3."], "M\t18FF21F3"),
    (M().encode() + b",,,\n" + S(203, 0).encode(), 2, ["The line is empty"], None),
    (instead("M\t18FF21F3", ";M;18FF21F3"), 1, ["commas"], "M\t18FF21F3"),
    (instead("M\t18FF21F3", '"M"\t"18FF21F3"'), 1, ["quotes"], "M\t18FF21F3"),
    (instead("M\t18FF21F3", "'M\t18FF21F3"), 1, ["quotes"], "M\t18FF21F3"),
    (instead("S\t203", "S\t\t203"), 2, ["tab too many"], "S\t203\t0"),
    (instead("203\t0", "203\t0\t"), 2, ["tab too many"], "S\t203\t0"),
    (instead("S\t203", "s\t203"), 2, ["a capital: S"], "S\t203\t0"),
    (GOOD.lower().encode(), 1, ["a capital: M", "written as capitals"], "M\t18FF21F3"),
    (instead("M\t", "M\t0x"), 1, ["without `0x`"], "M\t18FF21F3"),
    (GOOD.replace("M\t", "M\t0X").lower().encode(), 1, ["without `0x`"], "M\t18FF21F3"),
    (instead("M\t18FF21F3", "M\t18FF21F3h"), 1, ["`h`"], "M\t18FF21F3"),
    (instead("M\t18FF21F3", "M\t18FF21F3x"), 1, ["`x`"], "M\t18FF21F3"),
    (instead("M\t18FF21F3", "M\t18FF21F3#0011"), 1, ["from a log"], "M\t18FF21F3"),
    (instead("M\t18FF21F3", "M\t18FF1F3"), 1, ["has 7. Is a digit missing?"], None),
    (instead("M\t18FF21F3", "M\t123"), 1, ["has 3.", "11-bit identifier is another frame"], None),
    (instead("M\t18FF21F3", "M\t419373555"), 1, ["If it is a decimal number, it is 18FF21F3."], None),
    (instead("M\t18FF21F3", "M\tEngine"), 1, ["`Engine` is no identifier"], None),
    (instead("M\t18FF21F3", "M\t18FF2lF3"), 1, ["letter O, I or l"], "M\t18FF21F3"),
    (instead("203", "2O3"), 2, ["letter O, I or l"], "S\t203\t0"),
    (instead("203", "BMS_BattCurr"), 2, ["BMS_BattCurr is 203."], "S\t203\t0"),
    (instead("203", "BMS_SoftwareVer"), 2, ["BMS_SoftwareVer is 1301 and 1302."], None),
    (instead("203", "0203"), 2, ["zeros in front"], "S\t203\t0"),
    (instead("203", "+203"), 2, ["without a sign"], "S\t203\t0"),
    (instead("203\t0", "203\t2.3"), 2, ["byte 2, bit 3, write 19."], None),
    (instead("203\t0", "203"), 2, ["It has 2 fields and needs 3.", "signal's number and its start"], None),
    (instead("203", "100203"), 2, ["five digits"], None),
    (instead("203", "-203"), 2, ["`-203` is no signal number"], None),
    (instead("R\t0", "R\tA"), 4, ["`A` is no bus"], None),
    (instead("S\t203", "# current\nS\t203"), 2, ["no comments. Strike the line."], None),
    (instead("203\t0", "203\t0 # current"), 2, ["no comments: strike what stands behind"], "S\t203\t0"),
    (instead("S\t203", "\nS\t203"), 2, ["The line is empty"], None),
    ((GOOD + "\n").encode(), 6, ["The line is empty"], None),
    ((GOOD + "\x1a").encode(), 6, ["The line is empty"], None),
    (GOOD[:-1].encode(), 5, ["does not end with a newline"], None),
    (instead("S\t203", "message\tid\nS\t203"), 2, ["begins with M (a message)", "An R line has R"], None),
    (instead("M\t", "M\t\x1b[31m"), 1, ["control characters", "M<TAB><U+001B>[31m18FF21F3"], None),
]

# ---- the other refusals

REFUSED = [
    (b"x" * 40000, 1, 0, ["Is it the file you meant?"]),
    ((GOOD + "M\t98FF21F3\n").encode(), 3, 6, ["not below 20000000", "without it this one is 18FF21F3"]),
    (R(8, 1, 0, 1).encode(), 3, 1, ["There is no bus 8: buses are 0 to 7."]),
    ((M() + S(211, 64)).encode(), 3, 2, ["There is no signal 211: table 2 has 201 to 210.", "1305 year", "The start 64 is over 63"]),
    ((M() + S(1401, 0)).encode(), 3, 2, ["there is no table 14 with signals"]),
    (S(203, 0).encode(), 4, 1, ["the nearest M line above it, and there is none"]),
    ((M(1) + S(203, 0) + M(2) + M(1)).encode(), 5, 4, ["Line 1 is the M line of 00000001 already", "Strike this one"]),
    ((M(1) + S(203, 0) + S(204, 16) + S(203, 32)).encode(), 6, 4, ["Line 2 places signal 203 in this message already"]),
    ((M() + S(203, 60)).encode(), 7, 2, ["Signal 203 has 16 bits", "48 is the last start"]),
    ((M() + S(503, 0)).encode(), 7, 2, ["checksum 503 sits at start 60"]),
    ((M() + S(504, 0)).encode(), 7, 2, ["counter 504 sits at start 56"]),
    ((M() + S(203, 0) + S(204, 15)).encode(), 8, 3, ["Signal 204 fills bits 15 to 22; signal 203 in line 2 fills 0 to 15.", "at start 16, for one,"]),
    ((M() + S(401, 0) + S(402, 32) + S(204, 8)).encode(), 8, 4, ["no other place for signal 204"]),
    (("".join(M(i) for i in range(66))).encode(), 9, 65, ["It is M line 65 of 66, and a book has 64 at most.", "neither reads nor packs"]),
    ((signals(256) + M(1) + S(204, 0)).encode(), 9, 267, ["It is S line 257 of 257, and a book has 256 at most."]),
    ("".join(ROUTES[:66]).encode(), 9, 65, ["It is R line 65 of 66, and a book has 64 at most.", "Don't split them over several books", "not checked for loops"]),
    (R(0, 1, 0, 1).encode(), 10, 1, ["from a place to itself"]),
    ((GOOD + R(2, 0x18FF21D0, 0, 0x18FF21F3)).encode(), 10, 4, ["A frame that begins at bus 0, 18FF21F3 takes these routes in this order and is there again"]),
    ((R(0, 1, 1, 1) + M(1) + R(0, 1, 1, 1)).encode(), 11, 1, ["Lines 1 and 3 are the same route"]),
    ((R(0, 1, 1, 1) + R(0, 1, 2, 1) + R(1, 1, 3, 1) + R(2, 1, 3, 1)).encode(), 11, 1, ["Both lead from bus 0, 00000001 to bus 3, 00000001"]),
]
