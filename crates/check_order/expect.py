# Writes `stdin` and `stdout` of this folder's program, the second from a model of its own.
import itertools, os

# ---- the model: a record is its station, its phase and its eight counts
def r(station, phase, *counts):
    return station, phase, counts + (0,) * (8 - len(counts))

def own(x):
    return x[2][x[0]]

def well_kept(rs):
    groups = {}
    for x in rs:
        groups.setdefault(x[:2], []).append(own(x))
    return all(sorted(g) == list(range(1, len(g) + 1)) for g in groups.values())

# The last timestamps of a phase, by station.
def lasts(rs, phase):
    last = {}
    for x in rs:
        if x[1] == phase and (x[0] not in last or own(x) > last[x[0]][x[0]]):
            last[x[0]] = x[2]
    return last

def precedes(rs, x, y):
    reached = {s for s, c in lasts(rs, x[1]).items() if c[x[0]] >= own(x)}
    for phase in sorted({z[1] for z in rs if x[1] < z[1] < y[1]}):
        joins = {s for s, c in lasts(rs, phase).items() if any(c[k] >= 1 for k in reached)}
        reached = reached | joins
    return any(y[2][k] >= 1 for k in reached)

def verdict(rs, x, y):
    if x[1] != y[1]:
        return ("b" if precedes(rs, x, y) else "u") if x[1] < y[1] else "a" if precedes(rs, y, x) else "u"
    below, above = (all(p <= q for p, q in zip(*pair)) for pair in ((x[2], y[2]), (y[2], x[2])))
    return "s" if below and above else "b" if below else "a" if above else "u"

# What the program is to print of a pair; without records the bytes are no archive.
def answer(rs, i, j):
    if rs is None:
        return " 1"
    if i >= len(rs) or j >= len(rs):
        return " 12"
    if not well_kept(rs):
        return " 13"
    return verdict(rs, rs[i], rs[j])

# ---- what the program is told, and what it is to print
told, out, held = [], [], {}
tell, say = told.append, out.append

def line(text):
    tell(f"13|{text}")
    say(text + "\n")

# The archive is made; only records that the program does not hold yet are told.
def make(rs, n=4, t=65535):
    for k, x in enumerate(rs):
        if held.get(k) != x:
            tell(f"10 {k} {x[0]} {x[1]} " + " ".join(map(str, x[2][:n])))
            held[k] = x
    tell(f"11 {n} {t} {len(rs)}")
    return 512 + (len(rs) + 14) // 15 * 512

def pairs(text, rs, size, ps):
    tell(f"2 {size} {len(ps)} " + " ".join(f"{i} {j}" for i, j in ps) + f"|  {text} ")
    say(f"  {text} " + "".join(answer(rs, i, j) for i, j in ps) + "\n")

def case(text, rs, n=4, t=65535):
    line(text)
    size = make(rs, n, t)
    for i in range(len(rs)):
        tell(f"1 {size} {i} {len(rs)}|  {i} ")
        say(f"  {i} " + "".join(answer(rs, i, j) for j in range(len(rs))) + "\n")

def short(text, rs, ps, n=4, t=65535):
    pairs(text, rs, make(rs, n, t), ps)

seed = 1

def rnd(k):
    global seed
    seed = (seed * 6364136223846793005 + 1442695040888963407) % 2 ** 64
    return (seed >> 33) % k

def mixed(l):
    l = list(l)
    for i in range(len(l) - 1, 0, -1):
        j = rnd(i + 1)
        l[i], l[j] = l[j], l[i]
    return l

# ---- the phase of the first
line("station 1 has so much for station 0, of three")
for c in (0, 1, 2, 3, 4, 256, 65535):
    short(str(c), [r(0, 0, 1), r(0, 0, 2), r(0, 0, 3), r(1, 0, c, 1), r(1, 1, 0, 1)], [(0, 4), (1, 4), (2, 4), (4, 2), (3, 4)])
case("all of station 0 before its next phase", [r(0, 0, 1), r(0, 0, 2), r(0, 1, 1), r(0, 1, 2)])
case("only the last timestamp reaches", [r(0, 0, 1), r(1, 0, 0, 1), r(1, 0, 1, 2), r(1, 1, 0, 1)])
case("the same, record 2 before 1", [r(0, 0, 1), r(1, 0, 1, 2), r(1, 0, 0, 1), r(1, 1, 0, 1)])
case("only the first timestamp reaches: counts fall", [r(0, 0, 1), r(1, 0, 1, 1), r(1, 0, 0, 2), r(1, 1, 0, 1)])
case("the same, record 2 before 1", [r(0, 0, 1), r(1, 0, 0, 2), r(1, 0, 1, 1), r(1, 1, 0, 1)])
case("only the middle timestamp reaches, and others' counts are greatest there", [r(0, 0, 1), r(1, 0, 0, 1), r(1, 0, 9, 2, 9, 9), r(1, 0, 0, 3), r(1, 1, 0, 1)])
case("no chain within the phase of the first", [r(0, 0, 1), r(1, 0, 1, 1), r(2, 0, 0, 1, 1), r(2, 1, 0, 0, 1), r(1, 1, 0, 1)])
case("the first knows another station, which does not know it", [r(0, 0, 1, 1), r(1, 0, 0, 1), r(1, 1, 0, 1), r(0, 1, 1, 1)])

# ---- the phases between
def chain(a, b, c):
    return [r(0, 0, 1), r(1, a, 1, 1), r(2, b, 0, 1, 1), r(3, c, 0, 0, 1, 1), r(4, 4, 0, 0, 0, 1, 1)]

line("a chain of three links, in the phases told; the second in phase 4")
for a, b, c in itertools.product(range(5), repeat=3):
    short(f"{a} {b} {c}", chain(a, b, c), [(0, 4), (4, 0), (1, 4), (0, 3)], 5)
line("a link without its count, and without its record")
for k in (1, 2, 3):
    for phases in ((0, 1, 2), (1, 2, 3)):
        rs = chain(*phases)
        station, phase, counts = rs[k]
        short(f"{k}", rs[:k] + [r(station, phase, *(0,) * station, 1)] + rs[k + 1:], [(0, 4), (4, 0)], 5)
        short(f"{k}", rs[:k] + rs[k + 1:], [(0, 3), (3, 0)], 5)
for name, order in (("rising", range(8)), ("falling", range(7, -1, -1))):
    order = list(order)
    rs = [r(s, k, *(int(x in order[max(k - 1, 0):k + 1]) for x in range(8))) for k, s in enumerate(order)]
    case(f"a chain of eight stations, {name}", rs + [r(order[-1], 8, *(int(x == order[-1]) for x in range(8)))], 8)
case("two chains, one of them ends early", [r(0, 0, 1), r(1, 1, 1, 1), r(2, 1, 0, 0, 1), r(3, 2, 0, 0, 1, 1), r(2, 3, 0, 1, 1), r(3, 4, 0, 0, 0, 1)])
case("reached stations stay, though their last timestamps know none", [r(0, 0, 1), r(1, 1, 1, 1), r(1, 2, 0, 1), r(0, 2, 1), r(2, 3, 0, 1, 1), r(3, 4, 1, 0, 0, 1), r(3, 4, 0, 1, 0, 2)])
case("counts fall in a phase between", [r(0, 0, 1), r(1, 1, 1, 1), r(1, 1, 0, 2), r(2, 2, 0, 1, 1), r(1, 2, 0, 1)])
case("counts rise in a phase between", [r(0, 0, 1), r(1, 1, 0, 1), r(1, 1, 1, 2), r(2, 2, 0, 1, 1), r(1, 2, 0, 1)])
case("the second counts, and not the last of its station", [r(0, 0, 1), r(1, 1, 0, 1), r(1, 1, 1, 2), r(2, 1, 1, 0, 1), r(2, 1, 0, 0, 2)])
case("the phase of the second is no round", [r(0, 0, 1), r(1, 1, 1, 1), r(2, 1, 0, 1, 1), r(2, 2, 0, 0, 1), r(1, 2, 0, 1)])
case("a station reset twice without an entry", [r(0, 0, 1), r(1, 0, 1, 1), r(0, 1, 1), r(2, 2, 0, 0, 1), r(1, 3, 0, 1), r(2, 3, 0, 0, 1)])
case("counts for a station without records", [r(0, 0, 1, 0, 0, 7), r(1, 1, 0, 1, 0, 5), r(2, 2, 0, 0, 1, 1), r(0, 3, 1, 0, 0, 1)])
case("counts for a station without records in that phase", [r(0, 0, 1), r(1, 0, 1, 1), r(2, 1, 0, 1, 1), r(3, 2, 0, 0, 1, 1), r(2, 3, 1, 0, 1)])
case("one phase apart, and no phase between has records", [r(0, 0, 1), r(1, 1, 0, 1), r(0, 1, 1), r(1, 3, 1, 1), r(0, 3, 1), r(2, 3, 0, 1, 1)])
case("phases 0 and 999999", [r(0, 0, 1), r(0, 0, 2), r(1, 0, 1, 1), r(0, 999999, 1), r(1, 999999, 0, 1), r(2, 999999, 0, 0, 1)])
line("phases 0 and 999999, with a link in the phase told")
for phase in (0, 1, 2, 500000, 999997, 999998, 999999):
    short(f"{phase}", [r(0, 0, 1), r(1, phase, 1, 1), r(2, 999999, 0, 1, 1)], [(0, 2), (2, 0), (1, 2)])
case("a chain from 0 to 999999", [r(0, 0, 1), r(1, 1, 1, 1), r(2, 500000, 0, 1, 1), r(3, 999998, 0, 0, 1, 1), r(0, 999999, 1), r(1, 999999, 0, 1), r(3, 999999, 0, 0, 0, 1)])

# ---- far phases
# A stray knows a reached station in a timestamp that is not its last, so that a phase in which none joins may look as if one did.
strays = [1, 2, 4, 8, 16, 32, 64, 128, 256, 512, 1024, 2048, 4096]
far = (1, 1023, 1024, 1025, 1026, 2048, 2049, 5000)
near_strays = (1, 2, 20, 31, 32, 1023, 1024, 1025, 2047, 2048)
singles = (1, 2, 1022, 1023, 1024, 1025, 1026, 2047, 2048, 2049, 2050, 4096, 4097)
beside_strays = sorted({q + d for q in strays for d in (-1, 0, 1)} - {0} | {1500, 3071, 3072, 3073, 5000})
for name, first, at, doubles, links in (("far", 0, [], far, singles), ("past one stray", 994998, strays[:1], far, singles),
                                        ("past strays", 990000, strays, near_strays, beside_strays)):
    others = [r(4, first + q, *c) for q in at for c in ((1, 0, 0, 0, 1), (0, 0, 0, 0, 2))]
    line(f"two links, {name}")
    for a, b in itertools.product(doubles, repeat=2):
        rs = [r(0, first, 1), r(1, first + a, 1, 1), r(2, first + b, 0, 1, 1), r(3, first + 5001, 0, 0, 1, 1)]
        short(f"{a} {b}", rs + others, [(0, 3), (3, 0), (0, 2), (1, 3)], 5)
    line(f"a link, and the second in its phase and in the next, {name}")
    for d in links:
        rs = [r(0, first, 1), r(1, first + d, 1, 1), r(2, first + d, 0, 1, 1), r(2, first + d + 1, 0, 1, 1), r(3, first + d + 1, 0, 0, 1, 1)]
        short(f"{d}", rs + others, [(0, 2), (0, 3), (3, 0), (0, 4)], 5)
case("phases 1, 1025, 1026, 2049 and 5000", [r(0, 1, 1), r(1, 1025, 1, 1), r(2, 1025, 1, 0, 1), r(2, 1026, 0, 1, 1), r(3, 1026, 0, 1, 0, 1),
     r(3, 2049, 0, 0, 1, 1), r(0, 2049, 1, 1), r(1, 5000, 0, 1), r(2, 5000, 0, 0, 1), r(3, 5000, 0, 0, 0, 1), r(0, 5000, 1)])

# ---- one phase
case("same timestamps at two stations", [r(0, 0, 1, 1), r(1, 0, 1, 1), r(1, 0, 0, 2), r(0, 1, 1, 1), r(1, 1, 1, 1), r(2, 1, 1, 1, 1)])
case("a timestamp below that of an earlier phase", [r(0, 0, 1, 3), r(1, 1, 0, 1), r(0, 1, 1, 3), r(1, 2, 0, 1), r(2, 2, 1, 3, 1)])
case("one station", [r(0, 0, 1), r(0, 0, 2), r(0, 7, 1), r(0, 3, 1)], 1)
case("the worked listing", [r(0, 0, 1), r(0, 0, 2), r(1, 0, 2, 1), r(1, 1, 0, 1), r(0, 1, 1, 1)], 2, 7)

# ---- what is refused
kept = ([1], [2, 1], [3, 1, 2], [4, 2, 3, 1])
ill = ([2], [65535], [1, 1], [1, 3], [2, 2], [2, 3], [3, 1], [1, 3, 3], [3, 1, 3], [3, 3, 1], [1, 1, 3], [2, 2, 2], [1, 2, 2], [1, 2, 4], [2, 3, 4],
       [1, 2, 65535], [1, 1, 4, 4], [4, 4, 2, 1], [1, 2, 3, 5], [2, 1, 2, 1])
for station, phase in ((0, 0), (1, 5), (7, 6), (7, 999999)):
    line(f"own counts of station {station} in phase {phase}")
    for l in kept + ill:
        rs = [r(station, phase, *(0,) * station, c) for c in l] + [r(2, 4, 0, 0, 1), r(2, 6, 0, 0, 1)]
        m = len(rs)
        short(" ".join(map(str, l)), rs, [(m - 2, m - 1), (m - 1, m - 2), (0, 0), (0, m - 1), (m - 1, m - 1), (m, 0), (0, m)], 8)
case("own counts that run on into the next phase", [r(0, 0, 1), r(0, 0, 2), r(0, 1, 3)])
case("own counts that run on at another station", [r(0, 0, 1), r(1, 0, 0, 2)])
case("own counts from 1 in each phase and at each station", [r(0, 0, 1), r(0, 0, 2), r(0, 1, 1), r(1, 0, 0, 1), r(1, 0, 0, 2), r(1, 1, 0, 1)])
top = 2 ** 64 - 1
past = [(0, 1), (1, 0), (2, 2), (3, 0), (0, 3), (3, 3), (0, top), (top, 0), (top, top)]
whole = [r(0, 0, 1), r(1, 0, 1, 1), r(1, 1, 0, 1)]
gap = whole[:2] + [r(1, 1, 0, 2)]
for name, rs in (("well kept", whole), ("ill kept", gap)):
    line(f"records past the last, {name}")
    short("whole", rs, past)
    size = make(rs)
    for at in (1, 40, 511, 512, 540, 1023):
        tell(f"12 {at} 1")
        pairs(f"byte {at} raised", None, size, past)
        tell(f"12 {at} 255")
    pairs("one byte less", None, size - 1, past)
    pairs("the header alone", [], 512, past)
    pairs("no bytes", None, 0, past)
    make(rs, 1)
    pairs("a station fewer", None, size, past)
    make(rs + [r(0, 1, 2)], 4, 1)
    pairs("a count above the ceiling", None, size, past)

# ---- records in any order
base = [r(0, 0, 1), r(0, 0, 2), r(1, 0, 1, 1), r(2, 0, 0, 0, 1), r(1, 1, 0, 1), r(1, 1, 1, 2), r(3, 1, 0, 1, 0, 1), r(2, 2, 0, 0, 1), r(2, 2, 0, 0, 2, 1), r(0, 3, 1, 0, 1)]
case("ten records", base)
for k in range(6):
    order = list(range(9, -1, -1)) if k == 0 else mixed(range(10))
    line("the same, as records " + " ".join(map(str, order)))
    rs = [base[i] for i in order]
    size, at = make(rs), [order.index(i) for i in range(10)]
    for i in range(10):
        pairs(f"{i}", rs, size, [(at[i], at[j]) for j in range(10)])

# ---- runs of a network with resets, whose recorded order the verdicts must be
def run(n, near, steps):
    phase, mode, counts = [0] * n, ["normal"] * n, [[0] * 8 for _ in range(n)]
    req, done = [set() for _ in near], [set(x) for x in near]
    queue = {(i, j): [] for i in range(n) for j in near[i]}
    rs, earlier, latest = [], [], [None] * n

    def entry(i, sent=None):
        counts[i][i] += 1
        rs.append(r(i, phase[i], *counts[i]))
        earlier.append(set())
        for k in (latest[i], sent):
            if k is not None:
                earlier[-1] |= earlier[k] | {k}
        latest[i] = len(rs) - 1

    def put(i, item):
        for j in sorted(near[i]):
            queue[i, j].append(item)

    def turn(i, begin):
        while True:
            if begin or mode[i] == "normal" and req[i]:
                put(i, "req")
                done[i], mode[i], begin = set(), "mute", False
            elif mode[i] == "mute" and req[i] == near[i]:
                phase[i] += 1
                counts[i], req[i], mode[i] = [0] * 8, set(), "stand-by"
                put(i, "done")
            elif mode[i] == "stand-by" and done[i] == near[i]:
                mode[i] = "normal"
            else:
                return

    while len(rs) < steps:
        k, i = rnd(100), rnd(n)
        j = sorted(near[i])[rnd(len(near[i]))]
        if k < 1:
            entry(i)
        elif k < 5 and (mode[i] == "normal" or mode[i] == "stand-by" and j in done[i]):
            entry(i)
            queue[i, j].append((len(rs) - 1, list(counts[i])))
        elif k < 20 and mode[i] == "normal":
            turn(i, True)
        elif k > 20 and queue[j, i]:
            item = queue[j, i].pop(0)
            if isinstance(item, tuple):
                counts[i] = [max(p, q) for p, q in zip(counts[i], item[1])]
                entry(i, item[0])
            else:
                (req if item == "req" else done)[i].add(j)
                turn(i, False)
    for i, j in itertools.product(range(len(rs)), repeat=2):
        assert answer(rs, i, j) == ("s" if i == j else "b" if i in earlier[j] else "a" if j in earlier[i] else "u")
    return rs

for name, near in (("two stations", [{1}, {0}]), ("three in a row", [{1}, {0, 2}, {1}]), ("a ring of four", [{1, 3}, {0, 2}, {1, 3}, {0, 2}]), ("four in a row", [{1}, {0, 2}, {1, 3}, {2}])):
    for steps in (12, 20):
        case(f"a run, {name}", run(len(near), near, steps))

# ---- archives without a pattern: well kept, records in any order, other counts any
def some(n, phases, count, dense):
    rs, used = [], {}
    for _ in range(count):
        key = rnd(n), phases[rnd(len(phases))]
        used[key] = used.get(key, 0) + 1
        rs.append(r(*key, *(used[key] if s == key[0] else 1 + rnd(3) if rnd(100) < dense else 0 for s in range(n))))
    return mixed(rs)

for k in range(48):
    n = 2 + k % 4
    phases = (range(4), range(8), (0, 1, 2, 5, 6, 9), (3, 1027, 1028, 2051, 2052, 9000))[k // 4 % 4]
    case(f"any {k}", some(n, phases, 5 + rnd(6), (12, 25)[k % 2]), n)
large = sorted(some(4, range(6), 60, 12), reverse=True, key=lambda x: (x[1], x[0], own(x)))
case("sixty in reverse", large)
case("seventy-five, eight stations", some(8, (0, 1, 2, 3, 1030, 1031, 2500, 999999), 75, 6), 8)
rs = large[:44] + [r(3, 17, 0, 0, 0, 2)] + large[45:]
line("sixty, one of them ill kept")
short("pairs", rs, [(0, 59), (59, 0), (44, 44), (60, 0)])

here = os.path.dirname(os.path.abspath(__file__))
for name, text in (("stdin", "\n".join(told) + "\n"), ("stdout", "".join(out))):
    with open(os.path.join(here, name), "w") as file:
        file.write(text)
