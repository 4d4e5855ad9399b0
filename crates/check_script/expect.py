#!/usr/bin/env python3
"""Writes `stdin` and `stdout` of this folder's program, by a model of its own: a line's meaning by regular expressions, an
answer's text by formatting."""
import os, re

NUM = rb"(0|[1-9][0-9]*)"
BYTE, TWO, FOUR, STATION = 255, 65535, 4294967295, 7
FORMS = [
    ("Net", b"net", (BYTE, TWO)),
    ("Allow", b"allow", (STATION, TWO)),
    ("Link", b"link", (STATION, STATION, BYTE)),
    ("Link", b"link", (STATION, STATION)),
    ("Enter", b"enter", (STATION, FOUR)),
    ("Send", b"send", (STATION, STATION, FOUR)),
    ("Recv", b"recv", (STATION, STATION)),
    ("Start", b"start", (STATION,)),
]
DEFAULT_LIMIT = 16


def meaning(line):
    for name, word, bounds in FORMS:
        m = re.fullmatch(word + (b" " + NUM) * len(bounds), line, re.S)
        if m and all(len(x) < 20 and int(x) <= most for x, most in zip(m.groups(), bounds)):
            numbers = [int(x) for x in m.groups()]
            if name == "Link" and len(numbers) == 2:
                numbers.append(DEFAULT_LIMIT)
            return " ".join([name] + [str(x) for x in numbers])
    return "Bad"


def lines():
    good = []
    for name, word, bounds in FORMS:
        for pick in range(4):
            values = [(0, 1, b // 2, b)[pick] for b in bounds]
            good.append([word] + [b"%d" % v for v in values])
        for k in range(len(bounds)):
            for v in (0, 5, bounds[k]):
                good.append([word] + [b"%d" % (v if j == k else 1) for j in range(len(bounds))])
    good += [[b"net", b"9", b"5"], [b"net", b"0", b"5"], [b"net", b"1", b"0"], [b"link", b"0", b"1", b"33"], [b"link", b"2", b"2", b"4"]]
    for words in good:
        yield b" ".join(words)
    # every word, each field in turn spoilt
    for name, word, bounds in FORMS:
        ones = [b"1"] * len(bounds)
        whole = b" ".join([word] + ones)
        for k, most in enumerate(bounds):
            spoilt = [b"", b"+1", b"-0", b"-1", b"00", b"01", b"001", b"1.", b"1,", b"0x1", b"a", b"1a", b"a1", b"\xb2", b"1_0", b"1e3",
                      b"%d" % (most + 1), b"%d" % (most * 10), b"%d" % (most + 2**8), b"%d" % (1 + 2**16), b"%d" % (1 + 2**32), b"%d" % 2**63, b"%d" % 2**64,
                      b"%d" % (1 + 2**64), b"%d" % (7 + 10 * 2**64), b"1" + b"0" * 39, b"9" * 20, b"9" * 60, b"0" * 40, b"0" * 60 + b"1"]
            for s in spoilt:
                yield b" ".join([word] + ones[:k] + [s] + ones[k + 1:])
        for n in range(5):
            yield b" ".join([word] + [b"1"] * n)
            yield b" ".join([word] + [b"1"] * n) + b" "
        for edge in (b" ", b"\t", b"\r", b"\0", b"\x0b", b"\x80", b"\xff", b"\xc2\xa0", b"#", b"  ", b"\r\r"):
            yield edge + whole
            yield whole + edge
            for k in range(len(bounds)):
                yield b" ".join([word] + ones[:k]) + edge + b" ".join(ones[k:])
                yield b" ".join([word] + ones[:k]) + b" " + edge + b" ".join(ones[k:])
        for cut in range(len(word)):
            yield word[:cut]
            yield b" ".join([word[:cut]] + ones)
            yield b" ".join([word[:cut] + word[cut:cut + 1].upper() + word[cut + 1:]] + ones)
            yield b" ".join([word[:cut] + b"x" + word[cut + 1:]] + ones)
        yield word
        yield b" ".join([word + b"s"] + ones)
        yield b" ".join([word + b"1"] + ones)
        yield word + b"".join(ones)
        # lines about as long as the buffer, and far longer: what makes them bad stands past it
        for n in (20, 24, 30, 31, 32, 33, 34, 64, 2000):
            if len(whole) < n < 100 or name == "Start":
                yield whole + b" " * (n - len(whole))
                yield whole + b"x" * (n - len(whole))
                yield b" ".join([word] + ones[:-1] + [b"1".rjust(n - len(whole) + 1, b"0")])
                yield whole + b"0" * (n - len(whole))
    yield b""
    yield b""
    for b in range(256):
        if b != 10:
            yield bytes([b])
            yield b"start" + bytes([b]) + b"0"
            yield b"start 0" + bytes([b])
            yield b"start " + bytes([b])
    yield b" "
    yield b"    "
    yield b"rest"
    yield b"verdict 0 1"
    yield b"net 2 7;allow 0 3"
    yield b"start 0 # first"
    yield b"\xef\xbb\xbfnet 2 7"
    # the worked listing
    for l in ("net 2 7,allow 0 3,allow 1 3,link 0 1 2,enter 0 501,send 0 1 502,start 1,recv 1 0,recv 0 1,recv 1 0,recv 1 0,"
              "send 1 0 503,recv 0 1,recv 0 1,recv 0 1").split(","):
        yield l.encode()


MODES = {0: "normal", 1: "mute"}


def answers():
    mixed = [0, 1, 9, 10, 99, 100, 65534, 65535]

    def entry(number, phase, station, counts, n):
        return " ".join(["%d entry" % number] + [str(x) for x in [phase, station] + counts[:n]])

    def receipt(number, phase, station, counts, n, news):
        return "%s %d" % (entry(number, phase, station, counts, n), news)

    def mode(number, phase, station, m):
        return "%d mode %d %d %s" % (number, phase, station, MODES.get(m, "stand-by"))

    for n in range(11):
        yield entry(n, 999999, n, mixed, n)
    yield entry(2**64 - 1, 2**32 - 1, 255, [65535] * 8, 255)
    yield entry(18446744073709551609, 1000000, 100, [10000] * 8, 8)
    yield entry(1, 0, 0, [0] * 8, 1)
    yield entry(9, 9, 9, [9] * 8, 2)
    yield entry(10, 10, 10, [10] * 8, 3)
    yield entry(1234567890, 99999, 7, [12345] * 8, 4)
    for n in range(11):
        yield receipt(n, 999999, n, mixed, n, n)
    yield receipt(2**64 - 1, 2**32 - 1, 255, [65535] * 8, 255, 255)
    yield receipt(4, 0, 1, [2, 1, 0, 0, 0, 0, 0, 0], 2, 1)
    yield receipt(10, 1, 0, [1, 1, 0, 0, 0, 0, 0, 0], 2, 1)
    yield receipt(99, 9, 9, [9] * 8, 8, 99)
    yield receipt(100, 10, 10, [10] * 8, 8, 100)
    for m in range(5):
        yield mode(100 + m, 999999, m, m)
    yield mode(2**64 - 1, 2**32 - 1, 255, 255)
    yield mode(3, 0, 1, 1)
    for number, k in [(99999 + k, k) for k in range(14)] + [(2**64 - 1, 255)]:
        yield "%d no %d" % (number, k)
        yield "no %d" % k
        yield "bad"


def main():
    here = os.path.dirname(os.path.abspath(__file__))
    every = list(lines())
    assert all(b"\n" not in l for l in every)
    last = b"start 7"
    with open(os.path.join(here, "stdin"), "wb") as f:
        f.write(b"".join(l + b"\n" for l in every) + last)
    out = [meaning(l) for l in every + [last]]
    with open(os.path.join(here, "stdout"), "w") as f:
        f.write("".join(l + "\n" for l in out))
        old = "." * 99
        for text in answers():
            t = text + "\n"
            at = 5
            new = old[:at] + t + old[at + len(t):]
            assert len(new) == 99
            f.write("%s %d\n" % (new, at + len(t)))
            # a bad line goes over the refused setup before it
            old = new if text.startswith("no ") else "." * 99


main()
