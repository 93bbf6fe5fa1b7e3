#!/usr/bin/env python3
"""Writes the file vectors.txt beside it: test vectors of UTF-8, and what the check has to say of each.

Run it with no arguments, by Python 3, and commit the file. A line is a vector in hexadecimal, and its answer. They are the examples of
RFC 3629 (sections 7 and 10) and of the Unicode Standard (chapter 3, "Ill-formed code unit sequences"), every boundary of
the table of RFC 3629, section 4, sequences cut at every length, and places after characters of every length. The
answers come from Python's own decoder: `good`, or `bad` and the start of the sequence that it cannot decode.
"""
import pathlib

EXAMPLES = [
    "",
    "41E289A2CE912E",  # RFC 3629, section 7
    "ED959CEAB5ADEC96B4",
    "E697A5E69CACE8AA9E",
    "EFBBBFF0A38EB4",
    "C080",  # RFC 3629, section 10
    "2FC0AE2E2F",
    "C0AFE080BFF0818241",  # the Unicode Standard, chapter 3
    "EDA080EDBFBFEDAF41",
    "F4919293FF4180BF42",
    "E180E2F09192F1BF41",
    "4DD0B0E4BA8CF0908C82",
    "F888808080",  # forms of five and six bytes, which RFC 3629 no longer has
    "FC8480808080",
    "FEFF",
    "FFFE",
    "E28241",  # bad where the sequence begins, and not at the byte that spoils it
]

TAIL = (0x80, 0xBF)
# The boundaries, from RFC 3629, section 4: the range of each byte.
ROWS = [
    [(0x00, 0x7F)],
    [(0xC2, 0xDF), TAIL],
    [(0xE0, 0xE0), (0xA0, 0xBF), TAIL],
    [(0xE1, 0xEC), TAIL, TAIL],
    [(0xED, 0xED), (0x80, 0x9F), TAIL],
    [(0xEE, 0xEF), TAIL, TAIL],
    [(0xF0, 0xF0), (0x90, 0xBF), TAIL, TAIL],
    [(0xF1, 0xF3), TAIL, TAIL, TAIL],
    [(0xF4, 0xF4), (0x80, 0x8F), TAIL, TAIL],
]
ONE_OF_EACH_LENGTH = ["41", "C3A9", "E282AC", "F0908D88"]


def boundaries():
    for row in ROWS:
        lows, highs = bytes(low for low, _ in row), bytes(high for _, high in row)
        yield lows
        yield highs
        for at, (low, high) in enumerate(row):
            for byte in (low - 1, high + 1):
                if 0 <= byte:
                    yield lows[:at] + bytes([byte]) + lows[at + 1 :]
                    yield highs[:at] + bytes([byte]) + highs[at + 1 :]
            if at:
                yield lows[:at]  # cut here, at the end and before another character
                yield highs[:at]
                yield lows[:at] + b"A"
                yield highs[:at] + lows


def stray():
    for byte in [0x80, 0xBF, 0xC0, 0xC1, *range(0xF5, 0x100)]:
        yield bytes([byte])
        yield bytes([byte, 0x80, 0x80, 0x80])
    yield bytes([0xC0, 0xBF])
    yield bytes([0xC1, 0xBF])


def placed():
    wrong = ["80", "C0", "C2", "E282", "E28241", "EDA080", "F09F98", "F4908080", "FF"]
    before = ""
    for one in ONE_OF_EACH_LENGTH:
        before += one
        yield bytes.fromhex(before)
        for bad in wrong:
            yield bytes.fromhex(before + bad)
            yield bytes.fromhex(before + bad + one)


def answer(vector):
    try:
        vector.decode("utf-8")
    except UnicodeDecodeError as error:
        return f"bad {error.start}"
    return "good"


vectors = list(dict.fromkeys([*map(bytes.fromhex, EXAMPLES), *boundaries(), *stray(), *placed()]))
with open(pathlib.Path(__file__).parent / "vectors.txt", "w", encoding="ascii") as lines:
    lines.writelines(f"{vector.hex().upper()} {answer(vector)}\n" for vector in vectors)
