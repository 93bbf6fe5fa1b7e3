#!/usr/bin/env python3
"""Writes stdin and stdout of this crate: lines of hexadecimal, and the text that document 01 asks for.

It is the second source of the expected text: a reading of document 01 ("Tags", "Integers", "Bodies", "Headers", "The program")
and of document 02 (K1 and K2), not of the program's code. The first twelve lines of stdout are 01's own sample, which this
script asserts.
"""
import os

SAMPLE = ["0005010C0C008000051955", "30010C0C0080000519553E44429000003F", "2001"]
SAMPLE_TEXT = """1 request 0 5 1 12
1 4 0 context 0 4
1 9 0 context 1 1
1 ok 2
2 complex 1 12
2 3 0 context 0 4
2 8 0 context 1 1
2 10 0 open 3
2 11 1 application 4 4
2 16 0 close 3
2 ok 5
3 refused 3
"""


class Refused(Exception):
    """A refusal, by its number."""


def byte(frame, place):
    """The byte at a place; 3 where the bytes run out."""
    if place >= len(frame):
        raise Refused(3)
    return frame[place]


def read_tag(frame, place):
    """The class, number and value of the tag at a place, and the place after it."""
    first = byte(frame, place)
    place += 1
    number, context, low = first >> 4, first & 8, first & 7
    kind = "context" if context else "application"
    if context and number == 15:
        number = byte(frame, place)
        place += 1
    if context and low in (6, 7):
        return "open" if low == 6 else "close", number, 0, place
    if low < 5:
        return kind, number, low, place
    if low > 5:
        return kind, number, 0, place
    value = byte(frame, place)
    place += 1
    more = {254: 2, 255: 4}.get(value, 0)
    if more:
        if place + more > len(frame):
            raise Refused(3)
        value = int.from_bytes(frame[place : place + more], "big")
        place += more
    return kind, number, value, place


def walk(frame, place, out, name):
    """Puts a line for each tag accepted from a place on, and answers how many there are."""
    tags, blocks = 0, []
    while place < len(frame):
        kind, number, value, after = read_tag(frame, place)
        content = 0 if kind in ("open", "close") or (kind == "application" and number == 1) else value
        if after + content > len(frame):
            raise Refused(3)
        if kind == "open":
            if len(blocks) == 16:
                raise Refused(16)
        if kind == "close":
            if not blocks or blocks[-1] != number:
                raise Refused(15)
            blocks.pop()
        words = [name, place, len(blocks), kind, number] + ([value] if kind in ("application", "context") else [])
        out.append(" ".join(map(str, words)))
        if kind == "open":
            blocks.append(number)
        tags += 1
        place = after + content
    if blocks:
        raise Refused(3)
    return tags


def choice(frame, place):
    """A service choice; 11 above 33."""
    found = byte(frame, place)
    if found > 33:
        raise Refused(11)
    return found


def enumerated(frame, place):
    """The number of the enumerated at a place, and the place after it; 4 for another tag, then 7, 3 and 18."""
    kind, number, length, place = read_tag(frame, place)
    if (kind, number) != ("application", 9):
        raise Refused(4)
    if not 1 <= length <= 8:
        raise Refused(7)
    after = place + length
    if after > len(frame):
        raise Refused(3)
    found = int.from_bytes(frame[place:after], "big")
    if found > 4294967295:
        raise Refused(18)
    return found, after


def error(frame):
    """The words of an error's header line: its class is read wholly before its code."""
    words = ["error", byte(frame, 1), choice(frame, 2)]
    of_class, place = enumerated(frame, 3)
    code, _ = enumerated(frame, place)
    return words + [of_class, code]


def header(frame):
    """The words of the header line, and the place where the tags begin, or None where there are none."""
    control = byte(frame, 0)
    kind = control >> 4
    if kind == 1 or kind > 7 or (kind in (0, 3) and control & 8):
        raise Refused(17)
    if kind == 0:
        sizes = byte(frame, 1)
        return ["request", sizes >> 4, sizes & 15, byte(frame, 2), choice(frame, 3)], 4
    if kind == 4:
        return ["segment", byte(frame, 1), byte(frame, 2), byte(frame, 3)], None
    if kind == 5:
        return error(frame), None
    if kind == 6:
        return ["reject", byte(frame, 1), byte(frame, 2)], None
    if kind == 7:
        return ["abort", control & 1, byte(frame, 1), byte(frame, 2)], None
    return ["simple" if kind == 2 else "complex", byte(frame, 1), choice(frame, 2)], 3 if kind == 3 else None


def text(name, line):
    """The lines printed for the input line of that number."""
    out = []
    try:
        if len(line) > 2952 or len(line) % 2 or any(c not in b"0123456789abcdefABCDEF" for c in line):
            raise Refused(19)
        frame = bytes.fromhex(line.decode())
        words, body = header(frame)
        out.append(" ".join(map(str, [name] + words)))
        tags = 0 if body is None else walk(frame, body, out, name)
        out.append(f"{name} ok {tags}")
    except Refused as refusal:
        out.append(f"{name} refused {refusal.args[0]}")
    return "".join(row + "\n" for row in out)


def refused_errors():
    """Lines of errors that are refused: by the choice, and by class or code."""
    head, good = "50070C", "9102"
    # 11 right behind the choice, before anything of the class
    yield from ("500721", "500722", "5007FF", "50072291029120", "50072295", "5007222102", "50072290", "5F00FF95050100000000")
    # 3 in the tag, also in another tag than an enumerated's, in its length, and in its content
    for cut in ("", "95", "95FE", "95FE00", "95FF", "95FF000000", "F8", "FE", "FF", "9D", "65FE00", "FD09", "91", "9201", "94FFFFFF",
                "9505" + "00" * 4, "9508", "9508" + "FF" * 7, "95FE0001", "95FF0000000201"):
        yield head + cut
        yield head + good + cut
    # 4: another application number, context class, openings and closings in either form, Null, reserved; before 7 and 3
    other = ("2102", "8102", "A102", "9902", "F90902", "9E", "9F", "0E", "0F", "FE09", "FF09", "FE0F", "FF0F", "FEFF", "00", "10", "11",
             "D102", "E102", "F102", "F6", "F7", "20", "24", "2509", "98", "990102", "C400000000", "4442900000")
    # 7: no content and nine bytes or more, in every form of the length, whole or cut
    long = ("90", "96", "97", "9500", "95FE0000", "95FF00000000", "9509", "9509" + "00" * 9, "95FD", "95FE0009", "95FE0101", "95FF00000009",
            "95FF00000101", "95FF00010001", "95FFFFFFFFFF")
    # 18: the first number above 32 bits, in five bytes to eight, and the greatest
    great = ("95050100000000", "9506000100000000", "950700000100000000", "95080000000100000000", "95088000000000000001", "9508" + "FF" * 8)
    for fault in other + long + great:
        yield head + fault
        yield head + fault + "9120"
        yield head + good + fault
        yield head + good + fault + "3F"
    # a class at fault is refused before a code at fault
    for first in ("2102", "90", "95050100000000"):
        for second in ("95", "3E", "9509", "92", "9508" + "FF" * 8):
            yield head + first + second
    # the form that begins with an opening, for the choices that the standard gives it, and for another
    for service in (8, 9, 10, 12, 16, 18):
        yield f"5007{service:02X}0E910291200F"


def whole_errors():
    """Lines of errors that are read, and of what stands behind errors, rejects and aborts."""
    head, good = "50070C", "9102"
    # classes and codes: each length of the content, the ends of 32 bits, numbers and lengths in more bytes than they need
    for number in ("9100", "91FF", "920100", "92FFFF", "93010000", "93FFFFFF", "9480000000", "94FFFFFFFF", "920002", "93000002", "9400000002",
                   "95050000000002", "9506000000000002", "950700000000000002", "95080000000000000002", "950500FFFFFFFF", "950800000000FFFFFFFF",
                   "950102", "9504FFFFFFFF", "95FE000102", "95FF0000000102", "95FE0008" + "00" * 8, "95FF0000000800000000FFFFFFFF"):
        yield head + number + "9120"
        yield head + good + number
        yield head + number * 2
    # what stands behind a header is not walked: closings, openings, tags cut and past the end, seventeen blocks, as many digits as a line has
    for whole in (head + good + "9120", "600709", "710704"):
        for behind in ("3F", "3E", "FF0F", "65", "65FFFFFFFFFF", "24FF", "9120", "3E" * 17, "00" * (1476 - len(whole) // 2)):
            yield whole + behind
        yield whole + "AB" * (1477 - len(whole) // 2)
        yield whole + "0"


def lines():
    """The input's lines: every kind of header, every refusal that the program can meet, and the edges of each."""
    yield from SAMPLE
    # every kind of header, short by a byte, whole, and with bytes behind it
    for whole in ("0075010C", "20010F", "30010C", "40010203", "0275FF21", "2FFF21", "37FF21", "4FFFFFFF",
                  "50070C91029120", "600709", "700704", "710704", "58FF2194FFFFFFFF94FFFFFFFF", "5F000091009100", "68FFFF", "6F0000",
                  "78FFFF", "790000", "72FF00", "7E00FF", "7FFFFF"):
        for digits in range(0, len(whole) + 1, 2):
            yield whole[:digits]
        yield whole + "2107"
    # 11 at and above the last choice; 17 by the segment bit, before a 3
    yield from ("00050121", "00050122", "2001FF", "30FF22", "08", "38", "0F", "28010C", "48010203")
    # 17 by type, before a 3 and before what the bytes would be to another type
    for kind in [1] + list(range(8, 16)):
        yield from (f"{kind:X}0", f"{kind:X}F", f"{kind:X}0070C91029120", f"{kind:X}80722")
    yield from refused_errors()
    yield from whole_errors()
    # 19: other characters, odd numbers of digits, signs beside the digits in ASCII
    yield from ("0", "000", "zz", "0x00", "00 05", "0005010C\r", "/0", ":0", "@0", "G0", "`0", "g0", "0\x00", "\xff0", "0005010c2", "-1", "é")
    yield from ("30010c0c0080000519553e44429000003f", "30010C0c0080000519553E44429000003f", "5f0a0b94fFffFFFf91aB", "6A0bfE", "7b0aEf")
    # tags: each class, the long number, each length of the value, Boolean, low bits 6 and 7 where they open nothing
    head = "30010C"
    for tags in ("00", "10", "11", "14", "15FF", "21FF", "2207", "0C", "1A0102", "F80F", "F9FF07", "FE0F", "FF0F", "06", "07", "F6", "17",
                 "6500", "6505" + "00" * 5, "65FD" + "00" * 253, "65FE0005" + "11" * 5, "65FE00FE" + "22" * 254, "65FF00000005" + "33" * 5,
                 "65FFFFFFFFFF", "65FF00", "65FE", "65", "F8", "FD0F", "FD0FFE00", "24FFFFFF", "24FFFFFFFF", "ECFFFFFFFF", "E000"):
        yield head + tags
        yield head + "3E" + tags + "3F"
        yield "0005010F" + tags * 2
    # blocks: closed, unclosed, crossed, closed by another number, a closing alone
    for tags in ("3E3F", "3E", "3F", "3E4E4F3F", "3E4E3F4F", "3E2F", "0E1E2E3E2F", "0E0E0F0F", "0E0F0F", "EEEF", "3E21073F3F", "3E24003F", "2F", "3E3E3F"):
        yield head + tags
    # blocks whose number is a byte of its own, from 15 on and below: in either form, within one another, crossed, and cut before the number
    for tags in ("FE0F2107FF0F", "FEFFFFFF", "FE03FF03", "3E2107FF03", "FE0321073F", "0EFF00", "FE10EEEFFF10", "3EFE1021073FFF10", "FE0FFF10", "FE0FFF", "FE", "FF", "FF0F"):
        yield head + tags
    # sixteen blocks open at once, and one more
    for deep in (15, 16, 17, 18):
        yield head + "3E" * deep + "2107" + "3F" * deep
        yield "00050105" + "".join(f"{n % 15:X}E" for n in range(deep)) + "".join(f"{n % 15:X}F" for n in reversed(range(deep)))
        yield head + "FE05" * deep + "5F" * deep
        yield head + "5E" * deep
    # lines of 2,952 digits and past them; the longest text
    yield head + "65FE05BD" + "AB" * 1469
    yield head + "65FE05BD" + "ab" * 1469 + "0"
    yield head + "65FE05BE" + "AB" * 1470
    yield head + "10" * 1473
    yield head + "10" * 1474
    yield "0" * 2953
    yield "0" * 2954
    yield "f" * 135000
    yield "g" * 66000
    yield ""
    yield ""
    # lines that straddle the pieces read, whatever their size up to 65,536
    for length in list(range(1180, 1230)) + [1469] * 12:
        yield head + f"65FE{length:04X}" + "5A" * length
    # the last line has no newline
    yield "0005010C0C008000051955"


def main():
    """Writes the two files beside this one."""
    here = os.path.dirname(os.path.abspath(__file__))
    rows = [row.encode() for row in lines()]
    printed = "".join(text(number, row) for number, row in enumerate(rows, 1))
    assert printed.startswith(SAMPLE_TEXT)
    with open(os.path.join(here, "stdin"), "wb") as out:
        out.write(b"\n".join(rows))
    with open(os.path.join(here, "stdout"), "w") as out:
        out.write(printed)


if __name__ == "__main__":
    main()
