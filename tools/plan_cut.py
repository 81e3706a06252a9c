"""A plan's words, cut at its ANDs and ADDs ("gates") into runs of linear words, and the runs as arms of a match: runs in a row that differ only in
a shift number which grows by one are one arm over that number."""
import os
import re

ROOT = os.path.dirname(os.path.dirname(os.path.abspath(__file__)))
SIZES = [(16, "sixteen"), (8, "eight"), (4, "four"), (2, "two"), (1, "linear")]
CONST, XOR, AND, NOT, SHL, SHR, SPREAD, ADD = range(1, 9)
MOST = 27  # arms of a match, and of a crate: the time to check more grows faster than they do


def refuse(text):
    raise SystemExit("compile_plan: " + text)


def words_of(section):
    """The plan's words: those of its files in order; of a file named as FILE:HEAD,ROW*N,TAIL those of its constants, ROW N times over with the number of the row added to its first word."""
    words = []
    for part in section["words"].split():
        path, _, names = part.partition(":")
        try:
            text = open(os.path.join(ROOT, path), encoding="utf-8").read()
        except OSError as error:
            refuse(f"{path}: {error.strerror}")
        if not names:
            words += literals(path, text)
        for name in names.split(",") if names else []:
            words += constant(path, text, name)
    return words


def constant(path, text, named):
    """the words of a constant of a file, NAME, or NAME*N"""
    name, _, times = named.partition("*")
    found = re.search(r"const %s: [^=]*= \[(.*?)\];" % re.escape(name), text, re.S)
    if not found or not re.fullmatch(r"\d*", times):
        refuse(f"{path} has no constant {named}")
    table = literals(path, found[1])
    return [word + q if j == 0 else word for q in range(int(times or 1)) for j, word in enumerate(table)]


def literals(path, text):
    """The words of a text, without what stands in comments. One that is not 0x and eight digits would be lost, and nothing later could miss it."""
    found = re.findall(r"\b0x\w*", re.sub(r"//.*", "", text))
    for word in found:
        if not re.fullmatch(r"0x[0-9A-Fa-f]{8}", word):
            refuse(f"{path}: {word} is not 0x and eight digits")
    return [int(word, 16) for word in found]


def fields(word):
    return word >> 28, word >> 18 & 511, word >> 9 & 511, word & 511


def is_good(word):
    """document 01's rule for a plan's word"""
    kind, d, a, b = fields(word)
    if word >> 27 & 1 or d > 31 or not 1 <= kind <= 8:
        return False
    return kind == CONST or a < 32 and b < {XOR: 32, AND: 32, NOT: 1, SHL: 64, SHR: 64, SPREAD: 1, ADD: 32}[kind]


def checked(name, words, operands):
    """The words, where they are a plan that can be compiled. The prover would refuse what is refused here too, without saying what is wrong."""
    bad = next((k for k, word in enumerate(words) if not is_good(word)), None)
    if bad is not None:
        refuse(f"{name}: word {bad}, 0x{words[bad]:08X}, is bad")
    if len(words) > 2048:
        refuse(f"{name} has {len(words)} words, more than 2,048")
    known = set(range(operands))
    for k, word in enumerate(words):
        kind, d, a, b = fields(word)
        read = ({a} if kind != CONST else set()) | ({b} if kind in (XOR, AND, ADD) else set())
        if read - known:
            refuse(f"{name}: word {k} reads register {min(read - known)}, which is no operand and is not written before")
        known.add(d)
    if 2 not in known:
        refuse(f"{name} does not write register 2")
    if not any(word >> 28 in (AND, ADD) for word in words):
        refuse(f"{name} has no AND and no ADD")
    return words


def cut(words):
    runs, gates = [[]], []
    for word in words:
        if word >> 28 in (AND, ADD):
            gates.append(word)
            runs.append([])
        else:
            runs[-1].append(word)
    return runs, gates


def number_place(runs, k):
    """Where run k + 1 has a SHR word with a number one larger than run k, all else the same; None if it is not so."""
    if k + 1 >= len(runs) or len(runs[k]) != len(runs[k + 1]):
        return None
    differ = [j for j, (v, w) in enumerate(zip(runs[k], runs[k + 1])) if v != w]
    if len(differ) == 1 and runs[k][differ[0]] >> 28 == SHR and runs[k + 1][differ[0]] == runs[k][differ[0]] + 1:
        return differ[0]
    return None


class Arm:
    """Runs first to last by one text; `place` is the word that has the number, None for a single run; `order` has the places of the words in the order in
    which the code does them, None for the plan's, and whether their operands are exchanged."""

    def __init__(self, first, last, place, words):
        self.first, self.last, self.place, self.words, self.order = first, last, place, words, None

    def done(self):
        """the words in the code's order, None for the one that has the number"""
        order = self.order or [(j, False) for j in range(len(self.words))]
        return [None if j == self.place else exchange(self.words[j]) if other else self.words[j] for j, other in order]

    def base(self):
        return self.words[self.place] & ~511

    def number(self):
        """the shift number of the first"""
        return self.words[self.place] & 511

    def offset(self):
        """run number less shift number"""
        return self.first - self.number()


def arms_of(runs):
    """the runs in order as arms: the first group whose shift numbers are no larger than their runs' numbers is one, which the match has no key for"""
    arms, k = [], 0
    while k < len(runs):
        last, place = k, number_place(runs, k)
        while place is not None and last + 1 < len(runs) - 1 and number_place(runs, last) == place:
            last += 1
        if last - k < 2 or runs[k][place] & 511 > k or any(arm.place is not None for arm in arms):
            last, place = k, None
        arms.append(Arm(k, last, place, runs[k]))
        k = last + 1
    return arms


class Piece:
    """Arms in a row as one function: the first has all runs to do, another those from run `at` on. What is past its keys it leaves to the next piece, None for the
    last. Where there are more than one each is in a crate of its own."""

    def __init__(self, plan_crate, arms, alone, next_piece):
        self.arms, self.at, self.next = arms, min(arm.first for arm in arms), next_piece
        self.crate = plan_crate + ("" if alone else "_from_%d" % self.at if self.at else "_runs")
        self.place = ["from_%d" % self.at] if self.at else ["runs", "on_share"]


def pieces_of(crate, arms):
    """the arms in as few pieces as may be, all of about the same length"""
    count, pieces = -(-len(arms) // MOST), []
    for number in reversed(range(count)):
        pieces.insert(0, Piece(crate, arms[number * len(arms) // count:(number + 1) * len(arms) // count], count == 1, pieces[0] if pieces else None))
    return pieces


def calls_of(words):
    calls, at = [], 0
    while at < len(words):
        size, name = next((size, name) for size, name in SIZES if size <= len(words) - at)
        calls.append((name, words[at:at + size]))
        at += size
    return calls


def touched(word):
    """the register that a linear word sets, and those that it reads"""
    kind, d, a, b = fields(word)
    return d, {CONST: set(), XOR: {a, b}}.get(kind, {a})


def may_pass(word, earlier):
    """whether a linear word may be done before one that stands before it"""
    (d, read), (e, read_before) = touched(word), touched(earlier)
    return d != e and d not in read_before and e not in read


def exchange(word):
    """an XOR with its operands exchanged"""
    return word >> 18 << 18 | (word & 511) << 9 | word >> 9 & 511


def put_in_order(name, arms, text):
    """the orders that a section gives, a line RUN: PLACES for each, into their arms; a place with ' behind it is an XOR whose operands are exchanged"""
    for line in text.strip().splitlines():
        run, _, places = line.partition(":")
        arm = next((arm for arm in arms if str(arm.first) == run.strip()), None)
        found = [re.fullmatch(r"(\d+)('?)", place) for place in places.split()]
        order = [int(place[1]) for place in found if place]
        if arm is None or arm.order or not all(found) or sorted(order) != list(range(len(arm.words))):
            refuse(f"{name}: order {line!r} does not name a run, or the first of a group, once, and the places of its words")
        if any(place[2] and arm.words[int(place[1])] >> 28 != XOR for place in found):
            refuse(f"{name}: order {line!r} exchanges the operands of a word that is no XOR")
        passed = [(j, i) for at, j in enumerate(order) for i in order[at + 1:] if i < j and not may_pass(arm.words[j], arm.words[i])]
        if passed:
            refuse(f"{name}: in run {arm.first} word {passed[0][0]} may not be done before word {passed[0][1]}")
        arm.order = [(j, bool(place[2])) for j, place in zip(order, found)]


class Plan:
    """A section of plans.ini with its plan cut. `plan` is the definition that the prover knows, `unfold` what has to be unfolded to compute its words;
    without a definition the crate gets one of its own, the words as they stand."""

    def __init__(self, name, section):
        if not re.fullmatch(r"[a-z][a-z0-9]*", name):
            refuse(f"{name} is no name: small letters and digits, a letter first")
        if not section.get("title") or not section.get("words") or section.get("operands") not in ("1", "2"):
            refuse(f"{name} wants a title, words, and 1 or 2 operands")
        # the type of the plan; CompiledPlan is the trait's name
        self.name = "CompiledOwnPlan" if name == "compiled" else name.capitalize() + "Plan"
        self.crate, self.title = "compiled_" + name, section["title"]
        self.own = "plan" not in section
        own = "Rattle.%s.specs.Plan.%s_plan" % (self.crate, name)
        self.module, _, self.plan = section.get("plan", own).rpartition(".")
        self.unfold, self.operands = section.get("unfold", "").split(), int(section["operands"])
        self.words = checked(name, words_of(section), self.operands)
        self.runs, self.gates = cut(self.words)
        self.arms = arms_of(self.runs)
        put_in_order(name, self.arms, section.get("order", ""))
        self.rows = next((arm for arm in self.arms if arm.place is not None), None)
        self.pieces = [Piece(self.crate, self.ordered(), True, None)] if self.rows else pieces_of(self.crate, self.arms)
        self.long = len(self.pieces) > 1
        self.units = sum(1 if word >> 28 == AND else 12 for word in self.gates)
        self.alike = next((k for k, word in enumerate(self.gates) if word != self.gates[0]), len(self.gates))  # gates at the start that are the same word

    def adds(self):
        return sum(word >> 28 == ADD for word in self.gates)

    def figures(self):
        return f"words {len(self.words)}, ANDs {len(self.gates) - self.adds()}, ADDs {self.adds()}, tape words {self.units} n(n-1)"

    def calls(self, arm):
        """the calls of an arm: a function's name and its words, or None for the word with the number"""
        words = arm.done()
        if arm.place is None:
            return calls_of(words)
        at = words.index(None)
        return calls_of(words[:at]) + [("shifted", None)] + calls_of(words[at + 1:])

    def key(self, arm):
        return "_" if arm is (self.rows or self.arms[-1]) else "%d" % arm.first

    def ordered(self):
        """the arms in the match's order: the one without a key of its own last"""
        return [arm for arm in self.arms if self.key(arm) != "_"] + [arm for arm in self.arms if self.key(arm) == "_"]
