# Writes `stdin` and `stdout` of this folder's program, the second from a model of its own.
import os

def counts(k):
    m = k // 2
    return [1 + m // 3 + (m + 3 * i) % 5 for i in range(8)]

def event(k):
    kind, station = 1 + k // 3 % 3, k % 8
    return dict(kind=kind, station=station, peer=255 if kind == 1 else (station + 1) % 8, phase=k % 3, register=k, counts=counts(k))

def num(x, w):
    return x.to_bytes(w, "little")

def image(r):
    return bytes([r["kind"], r["station"], r["peer"], 0]) + num(r["phase"], 4) + num(r["register"], 4) + bytes(4) + b"".join(num(c, 2) for c in r["counts"])

def seal(b):
    b = bytes(b[:510])
    return b + num((1 + sum((p + 1) * x for p, x in enumerate(b))) % 65521, 2)

def header(n, t):
    return seal(bytes([1, n]) + num(t, 2) + bytes(28) + bytes([5] * 64) + bytes(414))

def entries(number, ks):
    b = bytes([2, len(ks), 0, 0]) + num(number, 4) + bytes(8) + b"".join(image(event(k)) for k in ks)
    return seal(b + bytes(510 - len(b)))

def make(n):
    return header(8, 2000) + b"".join(entries(b + 1, range(15 * b, min(n, 15 * b + 15))) for b in range((n + 14) // 15))

def parse(r):
    g = lambda o, w: int.from_bytes(r[o:o + w], "little")
    return dict(kind=r[0], station=r[1], peer=r[2], phase=g(4, 4), register=g(8, 4), counts=[g(16 + 2 * i, 2) for i in range(8)])

def record_ok(r):
    d = parse(r)
    if r[3] or any(r[12:16]) or d["kind"] not in (1, 2, 3) or d["station"] > 7 or d["phase"] > 999999:
        return False
    if (d["kind"] == 1) != (d["peer"] == 255) or (d["kind"] > 1 and (d["peer"] > 7 or d["peer"] == d["station"])):
        return False
    return d["counts"][d["station"]] >= 1

def known(d, n, t, limit):
    if d["station"] >= n or any(c > (t if i < n else 0) for i, c in enumerate(d["counts"])):
        return False
    if d["kind"] == 1:
        return True
    a, b = (d["station"], d["peer"]) if d["kind"] == 2 else (d["peer"], d["station"])
    return d["peer"] < n and limit[8 * a + b] > 0

# The records of an archive, or nothing where the bytes are no archive.
def read(a):
    if len(a) % 512 or not a or any(seal(a[o:o + 512]) != a[o:o + 512] for o in range(0, len(a), 512)):
        return None
    h = a[:512]
    n, t, limit = h[1], h[2] + 256 * h[3], h[32:96]
    if h[0] != 1 or not 1 <= n <= 8 or t < 1 or any(h[4:16]) or any(h[96:510]) or any(x > 32 for x in limit):
        return None
    out, total = [], len(a) // 512 - 1
    for b in range(1, total + 1):
        e = a[512 * b:512 * b + 512]
        c = e[1]
        if e[0] != 2 or not 1 <= c <= 15 or any(e[2:4]) or int.from_bytes(e[4:8], "little") != b or any(e[8:16]) or any(e[16 + 32 * c:510]):
            return None
        if c < 15 and b < total:
            return None
        rs = [e[16 + 32 * k:48 + 32 * k] for k in range(c)]
        if not all(record_ok(r) and known(parse(r), n, t, limit) for r in rs):
            return None
        out += [parse(r) for r in rs]
    return out

def verdict(x, y):
    p, q = x["counts"], y["counts"]
    if p == q:
        return "same"
    if all(i <= j for i, j in zip(p, q)):
        return "before"
    return "after" if all(i >= j for i, j in zip(p, q)) else "unordered"

# What the program is told, and what it is to print. A call on bytes is told where they begin and end.
told, out = [], []
tell, say = told.append, out.append

def lister(rs, at, r, places):
    tell(f"1 {at}|  record {r}, places {places}")
    say(f"  record {r}, places {places}: ")
    if rs is None or r >= len(rs):
        return say(f"refused {1 if rs is None else 12}, left 1000\n")
    found = [k for k, x in enumerate(rs) if x["phase"] == rs[r]["phase"] and verdict(rs[r], x) == "unordered"]
    found.sort(key=lambda k: (rs[k]["station"], rs[k]["counts"][rs[k]["station"]], k))
    if len(found) > places:
        return say("refused 11, left 1000\n")
    say(f"count {len(found)}" + "".join(f" {k}" for k in found) + f", left {1000 - len(found)}\n")

def order(rs, i, j):
    if rs is None:
        return say(" 1")
    if i >= len(rs) or j >= len(rs):
        return say(" 12")
    say(" 10" if rs[i]["phase"] != rs[j]["phase"] else " " + verdict(rs[i], rs[j]))

def orders(rs, at, i, n):
    tell(f"2 {at} {n}|  order of {i}:")
    say(f"  order of {i}:")
    for j in range(n + 1):
        order(rs, i, j)
    say("\n")

def fits(rs, at, r):
    for places in range(10):
        lister(rs, at, r, places)

def refusals(a, at):
    rs, top = read(a), 2 ** 64 - 1
    lister(rs, at, 0, 1000)
    lister(rs, at, top, 0)
    lister(rs, at, 4, 0)
    say("  orders:")
    for i, j in ((0, 3), (0, 1), (0, top), (top, 0)):
        tell(f"3 {at} {i} {j}" + ("|  orders:" if (i, j) == (0, 3) else ""))
        order(rs, i, j)
    line("")

def line(text):
    tell(f"15|{text}" if text else "15")
    say(text + "\n")

def total(a, label=""):
    rs = read(a)
    tell(f"4 0 {len(a)}" + label)
    say(": refused 1\n" if rs is None else f": records {len(rs)}\n")

for n in (0, 1, 14, 15, 16, 30, 31):
    line(f"records {n}")
    tell(f"10 {n}")
    rs, at = read(make(n)), f"0 {len(make(n))}"
    for r in range(n + 1):
        lister(rs, at, r, 1000)
    for i in (0, 4, n):
        orders(rs, at, i, n)

line("spoilt")
tell("10 31")
a = make(31)
fits(read(a), "0 2048", 4)
for part, at in ((a, "0 2048"), (a[:2047], "0 2047"), (a[:512], "0 512"), (b"", "0 0"), (a[512:], "512 2048")):
    refusals(part, at)
tell("13 1552 0")
refusals(a[:1552] + b"\0" + a[1553:], "0 2048")

line("harmed")
# the header of 31 records: one station fewer, another t, links that some record names and that none does
cases = [(0, 1, 8), (0, 1, 7), (0, 2, 0), (0, 60, 0), (0, 94, 0), (0, 67, 0), (0, 34, 0), (0, 0, 2)]
# block numbers, counts of records, and the kind of a block
cases += [(1, 4, 1), (1, 4, 2), (2, 4, 1), (2, 7, 1), (3, 4, 4), (3, 1, 2), (2, 1, 14), (3, 0, 1)]
# a record's station, peer and phase
cases += [(3, 17, 8), (3, 18, 3), (3, 18, 6), (3, 22, 16)]
# counts up to t and above it, an own count of 0, and a place past the last record
cases += [(3, 32, 208), (3, 33, 7), (3, 33, 8), (3, 44, 0), (3, 48, 1)]
for b, p, x in cases:
    tell("10 31")
    tell(f"12|  block {b}, byte {p} set to {x}")
    say(f"  block {b}, byte {p} set to {x}")
    c = a[512 * b:512 * b + p] + bytes([x]) + a[512 * b + p + 1:512 * b + 512]
    total(a[:512 * b] + seal(c) + a[512 * b + 512:])

line("ill kept")
# record 30 below records 6 and 15 of its station, then equal to record 6; record 15 equal to record 6
for b, p, x in ((3, 44, 1), (3, 44, 3), (2, 17, 6)):
    tell("10 31")
    tell(f"12|  block {b}, byte {p} set to {x}")
    say(f"  block {b}, byte {p} set to {x}")
    kept = a[:512 * b] + seal(a[512 * b:512 * b + p] + bytes([x]) + a[512 * b + p + 1:512 * b + 512]) + a[512 * b + 512:]
    total(kept)
    for r in range(0, 31, 3):
        lister(read(kept), "0 2048", r, 1000)
tell("10 31")
short = a[:1024] + entries(2, range(15, 29)) + a[1536:]
wrong = a[:2046] + bytes([(a[2046] + 1) % 256]) + a[2047:]
for call, word, part in (("11 14", "in block 2 14", short), ("", "at the end 14", short[:1536]), ("11 15", "in block 2 15", a), ("", "at the end 15", a[:1536]),
                         ("14 2046 1", "a wrong check at the end", wrong), ("", "without that block", wrong[:1536])):
    if call:
        tell(call)
    say("  " + word)
    total(part, "|  " + word)

rs, at = read(make(3000)), "0 102912"
tell("10 3000")
say("records 3000")
total(make(3000), "|records 3000")
for r in (0, 14, 15, 1500, 2999, 3000):
    lister(rs, at, r, 1000)
fits(rs, at, 2999)
orders(rs, at, 1500, 3000)
here = os.path.dirname(os.path.abspath(__file__))
for name, text in (("stdin", "\n".join(told) + "\n"), ("stdout", "".join(out))):
    with open(os.path.join(here, name), "w") as file:
        file.write(text)
