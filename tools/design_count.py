"""Counts the places of docs/DESIGN-PASS.md: usage: design_count.py [TREE] [POINT..] [--totals]
TREE is a checkout (default: here), POINT one of 1 to 8 (default: all). Prints `point crate/file:line kind: what` for each place, then a total
for each kind and each point. It reads text, not types: each rule stands below beside its kind, and a rule can miss a place or name one too many."""

import collections
import os
import re
import sys

TOKEN = re.compile(
    r"""(?P<gap>\s+|//[^\n]*)|(?P<str>b?"(?:\\.|[^"\\])*")|(?P<life>'[a-z_]\w*(?!'))|(?P<chr>b?'(?:\\.|[^'\\])')"""
    r"""|(?P<num>\d[0-9a-zA-Z_]*)|(?P<id>[A-Za-z_]\w*)|(?P<op>->|=>|==|!=|<=|>=|&&|\|\||::|\+=|-=|\*=|\.\.=?|.)""", re.S)
OPEN, CLOSE = "([{", ")]}"
INTS = {"u8", "u16", "u32", "u64", "usize"}
KEEP = INTS | set("let mut while for in if else return match true false as loop break continue bool Answer Self self fn pub struct enum".split())
ROOM = re.compile(r"\w+_(room|width)$|[A-Z_]+_(ROOM|WIDTH)$")
Tok = collections.namedtuple("Tok", "text line kind")


def lex(text):
    line, out = 1, []
    for m in TOKEN.finditer(text):
        if m.lastgroup != "gap":
            out.append(Tok(m.group(), line, m.lastgroup))
        line += m.group().count("\n")
    return out


def closing(ts, i):
    deep = 0
    for j in range(i, len(ts)):
        deep += (ts[j].text in OPEN) - (ts[j].text in CLOSE)
        if not deep:
            return j


def split(ts, mark=","):
    out, deep = [[]], 0
    for t in ts:
        deep += (t.text in OPEN) - (t.text in CLOSE)
        if t.text == mark and not deep:
            out.append([])
        else:
            out[-1].append(t)
    return [x for x in out if x]


def words(ts):
    return [t.text for t in ts]


def text(ts):
    s = re.sub(r"(?<=[(\[&!:]) | (?=[)\],;:?])", "", " ".join(words(ts)))
    return re.sub(r" ?\. ?", ".", re.sub(r" ?(::|<|>) ?", r"\1", s)).replace(" ;", ";")


class Item:
    """A function, struct or enum: where it stands, and its parts as tokens."""

    def __init__(self, crate, file, kind, ts, i):
        self.crate, self.file, self.kind, self.name, self.line = crate, file, kind, ts[i + 1].text, ts[i].line
        self.fields, self.ret, self.requires, self.ensures, self.body = [], [], [], [], []
        j = i + 2
        if ts[j].text == "<":
            while ts[j].text not in OPEN:
                j += 1
        e = closing(ts, j)
        self.whole = ts[j:e + 1]
        for p in split(ts[j + 1:e]):
            while p[0].text in ("pub", "mut", "ghost"):
                p = p[1:]
            colon = [k for k, t in enumerate(p) if t.text == ":"]
            self.fields.append((p[:colon[0]], p[colon[0] + 1:]) if colon and kind != "enum" else (p[:1], p))
        self.end = e
        if kind == "fn":
            j = e + 1
            if ts[j].text == "->":
                k = j + 1
                while ts[k].text not in ("requires", "ensures", "{", ";", "where"):
                    k = closing(ts, k) + 1 if ts[k].text in "([" else k + 1
                self.ret, j = ts[j + 1:k], k
            while ts[j].text not in ("requires", "ensures", "{", ";"):
                j += 1
            while ts[j].text in ("requires", "ensures"):
                k = j
                while ts[k].text != "{":
                    k += 1
                e = closing(ts, k)
                getattr(self, ts[j].text).append(ts[k + 1:e])
                j = e + 1
            if ts[j].text == "{":
                e = closing(ts, j)
                self.body = ts[j + 1:e]
            self.end = e
            self.whole = self.whole + [Tok("->", 0, "op")] + self.ret + self.body

    def names(self):
        return [text(n) for n, _ in self.fields]

    def types(self):
        return [text(t) for _, t in self.fields]

    def says(self, *clauses):
        return {t.text for c in (clauses or self.requires + self.ensures) for t in c}

    def shape(self):
        """The same for two items that differ in names, numbers and strings alone."""
        seen, out = {}, []
        for t in self.whole:
            if t.kind == "id" and t.text not in KEEP:
                out.append("v%d" % seen.setdefault(t.text, len(seen)))
            elif t.text != ",":
                out.append("#" if t.kind == "num" else '""' if t.kind == "str" else t.text)
        return self.kind + " " + " ".join(out)


class Tree:
    def __init__(self, root):
        self.root, self.items, self.files = root, [], {}
        crates = os.path.join(root, "crates")
        for crate in sorted(os.listdir(crates)):
            for file in sorted(f for d, _, fs in os.walk(os.path.join(crates, crate, "src")) for f in [os.path.join(d, x) for x in fs] if f.endswith(".rt")):
                source = open(file).read()
                name = os.path.relpath(file, crates)
                ts = lex(source)
                self.files[name] = (crate, source, ts)
                i = 0
                while i < len(ts) - 2:
                    if ts[i].text in ("fn", "struct", "enum") and ts[i + 1].kind == "id":
                        self.items.append(Item(crate, name, ts[i].text, ts, i))
                        i = self.items[-1].end
                    i += 1
        self.fns = [x for x in self.items if x.kind == "fn"]
        self.structs = [x for x in self.items if x.kind == "struct"]
        self.enums = [x for x in self.items if x.kind == "enum"]


PLACES = []


def put(point, item, kind, what, line=None):
    PLACES.append((point, item.file, line or item.line, kind, what))


def sites(f, *pattern):
    """Where these tokens stand in a body; None takes any token."""
    b = f.body
    return [i for i in range(len(b) - len(pattern) + 1) if all(p is None or (p(b[i + k]) if callable(p) else b[i + k].text == p) for k, p in enumerate(pattern))]


# ---- 1: Option, Result and numbers for kinds, by hand

KIND_NAMES = {"lifecycle", "role", "kind", "domain", "number", "reason"}
COMPARE = {"==", "!=", "<", "<="}


def point1(t):
    # an enum of two variants, one of them without a value
    own = [e for e in t.enums if len(e.fields) == 2 and any(len(v) == 1 for _, v in e.fields)]
    for e in own:
        put(1, e, "enum", e.name + " {" + ", ".join(e.types()) + "}")
    # a struct with a bool beside other fields; a struct with an Answer beside other fields
    flags = [s for s in t.structs if "bool" in s.types() and len(s.fields) > 1]
    for s in flags:
        put(1, s, "flag", s.name + " {" + ", ".join(s.names()) + "}")
    answered = [s for s in t.structs if "Answer" in s.types() and len(s.fields) > 1]
    for s in answered:
        put(1, s, "answer-and-value", s.name + " {" + ", ".join(s.names()) + "}")
    made = {x.name for x in own + flags}
    marks = {text(n) for s in flags for n, ty in s.fields if text(ty) == "bool"}
    # consts that number a kind
    for name, (crate, source, ts) in t.files.items():
        for m in re.finditer(r"^ *(?:pub )?const (\w+): (u8|usize) = (\d+);", source, re.M):
            if m[2] == "u8" and re.search(r"LIFECYCLE|KIND|ROLE|ACTIVE|TABLE|MISSION|TOMB|REGISTERED|DRAIN", m[1]) or m[1] == "LIFECYCLES":
                PLACES.append((1, name, source.count("\n", 0, m.start()) + 1, "number-const", m[1]))
    for s in t.structs:
        for n, ty in s.fields:
            if text(ty) == "u8" and text(n) in KIND_NAMES:
                put(1, s, "number-field", s.name + "." + text(n), n[0].line)
    for e in t.enums:
        for n, v in e.fields:
            if any(x.text == "u8" for x in v):
                put(1, e, "number-operand", text(v), n[0].line)
    for f in t.fns:
        ret = text(f.ret)
        if ret in made:
            put(1, f, "gives", f.name + " -> " + ret)
        if ret == "Answer":
            put(1, f, "check", f.name + " -> Answer")
        if ret == "u8" and ("lowest" in f.says() or f.name == "mode"):
            put(1, f, "reason", f.name + " -> u8")
        for i in sites(f, lambda x: x.text in ("reason", "how"), lambda x: x.text in ("!=", "=="), lambda x: x.kind == "num"):
            put(1, f, "reason-test", f.name + ": " + text(f.body[i:i + 3]), f.body[i].line)
        asked = KIND_NAMES - {"number", "reason"}
        # parameters that are numbers for kinds; b is a command's byte where a tape stands beside it or the test is of commands
        for n, ty in f.fields:
            n = text(n)
            command = n == "b" and ("tape" in f.names() or f.name in ("is_command", "size_of", "needs_name"))
            move = n in ("to", "from") and f.name not in ("ids_clear", "replicas_clear") or n == "j"
            if text(ty) == "u8" and (n in KIND_NAMES or command or move):
                put(1, f, "number-parameter", f.name + ": " + n)
                asked.add(n)
        # a kind compared with a number
        for i in sites(f, lambda x: x.text in asked, lambda x: x.text in COMPARE, lambda x: x.kind == "num" or x.text.isupper()):
            put(1, f, "number-test", f.name + ": " + text(f.body[i:i + 3]), f.body[i].line)
        for i in sites(f, lambda x: x.kind == "num" or x.text.startswith("LAST_"), lambda x: x.text in ("<", "<=")):
            k = i + 3
            while f.body[k:k + 1] and f.body[k].text == ".":
                k += 2
            if f.body[k - 1].text in asked:
                put(1, f, "number-test", f.name + ": " + text(f.body[i:k]), f.body[i].line)
        # a kind or a reason given as a number
        for i in sites(f, lambda x: x.text in ("Answer", "Clash"), "::", None, "("):
            args = split(f.body[i + 4:closing(f.body, i + 3)])
            given = [text(a) for a in args if len(a) == 1 and (a[0].kind == "num" or a[0].text.isupper())]
            if given and f.name != "report":
                put(1, f, "number-given", f.name + ": " + text(f.body[i:i + 3]) + " " + ", ".join(given), f.body[i].line)
        for i in sites(f, "judge_in", "(") + (sites(f, "return", lambda x: x.kind == "num") if "lowest" in f.says() or f.name == "mode" else []):
            put(1, f, "number-given", f.name + ": " + text(f.body[i:i + 3]), f.body[i].line)
        # the ? by hand: an answer that is not Applied goes back as it is
        for i in sites(f, "is_applied", "("):
            b = f.body
            e = closing(b, i + 1)
            name, no = text(b[i + 2:e]), b[i - 1].text == "!"
            k = e
            while b[k].text != "{":
                k += 1
            shut = closing(b, k)
            other = words(b[shut + 1:shut + 5])
            if no and words(b[k + 1:k + 3]) == ["return", name] or other == ["else", "{", "return", name] or words(b[shut + 1:]) == [name]:
                put(1, f, "question-mark", f.name + ": is_applied(" + name + ")", b[i].line)
        for i in sites(f, "looked", "("):
            put(1, f, "question-mark", f.name + ": let .. = looked(..) else", f.body[i].line)
        # taken apart: let T::V = .. else, if let, match
        for i in sites(f, "let", lambda x: x.text in made, "::"):
            if f.body[i + 1].text != "LookedUp":
                put(1, f, "taken-apart", f.name + ": let " + f.body[i + 1].text, f.body[i].line)
        for i in sites(f, "match"):
            k = i
            while f.body[k].text != "{":
                k += 1
            if f.body[k + 1].text in made:
                put(1, f, "taken-apart", f.name + ": match " + f.body[k + 1].text, f.body[i].line)
        # a flag asked by its name
        for i in sites(f, ".", lambda x: x.text in marks):
            if f.body[i + 2:i + 3] and f.body[i + 2].text == "=":
                continue
            put(1, f, "flag-asked", f.name + ": " + text(f.body[i - 1:i + 2]), f.body[i].line)


# ---- 2: twins

FAMILIES = "every any none_twice find_index rising opened_rows field_at same_list".split()


def spec_words(f, t):
    out = set()
    for m in re.finditer(r"^ghost use Rattle\.(?!std\.)[\w.]+\{([^}]*)\}", t.files[f.file][1], re.M):
        out |= set(re.findall(r"\w+", m[1]))
    return (out & f.says()) - {"Appended"}


def point2(t):
    found = collections.defaultdict(list)
    # the same shape: they differ in names, types, sizes and constants alone
    for x in t.items:
        if x.body or x.kind != "fn" and (INTS | {"bool", "Answer", "["}) & set(words(x.whole)):
            found["shape", x.shape()].append(x)
    # the same name in two crates, on one definition: by value and on lent rows
    named = collections.defaultdict(list)
    for f in t.fns:
        if f.crate != "store":
            named[f.name].append(f)
    for name, fs in named.items():
        for f in fs:
            if any(f.crate != g.crate and spec_words(f, t) & spec_words(g, t) for g in fs):
                found["named", name].append(f)
    # a loop that does the same with another row, test or step
    for f in t.fns:
        if any(x.text in ("while", "for", "loop") for x in f.body):
            said = [w for w in FAMILIES if w in f.says(*f.ensures)]
            index = {f.body[i + 1].text for i in sites(f, "while", None)}
            if not said:
                fills = sites(f, None, "[", lambda x: x.text in index, "]", "=")
                folds = sites(f, None, "+=") + [i for i in sites(f, None, "=", None, "(", None) + sites(f, None, "=", None, "::", None, "(", None)
                                                if f.body[i].text in (f.body[i + 4].text, f.body[i + 6].text)]
                folds = [i for i in folds if f.body[i].kind == "id" and f.body[i].text not in index and f.body[i - 1].text != "mut"]
                said = (["the first refusal"] if text(f.ret) == "Answer" else ["put each"] if f.name.startswith("put_") else ["fill"] if fills
                        else ["fold"] if folds and text(f.ret) != "Numbers" else ["collect"] if text(f.ret) == "Numbers" else ["other"])
            for w in said:
                if w != "other":
                    found["loop", w].append(f)
    # the handlers and their steps: one frame, another command
    for f in t.fns:
        for w in ("entry", "step"):
            if f.ensures and words(f.ensures[0])[:3] == ["result", "≡", w]:
                found["frame", w].append(f)
        for w in ("decide_", "apply_"):
            if f.name.startswith(w) and f.crate != "store":
                found["frame", w + ".."].append(f)
    n = collections.Counter()
    for (rule, key), xs in sorted(found.items(), key=lambda g: (g[0][0], -len(g[1]), g[1][0].file, g[1][0].line)):
        if len(xs) > 1:
            n[rule] += 1
            for x in xs:
                put(2, x, rule, "%s %d (%s of %d): %s %s" % (rule, n[rule], key if rule != "shape" else "one", len(xs), x.kind, x.name))
    return found


# ---- 3: loops

def point3(t):
    for f in t.fns:
        b = f.body
        for i, x in enumerate(b):
            if x.text in ("while", "loop") or x.text == "for" and b[i - 1].text != "impl":
                k = i
                while b[k].text != "{":
                    k += 1
                head, body = b[i + 1:k], b[k:closing(b, k) + 1]
                names = {h.text for h in head if h.kind == "id"}
                steps = {body[j + 1].text for j in range(len(body) - 2) if body[j].text in names and body[j + 2].kind == "num"}
                kind = "for" if x.text == "for" else "counted-up" if "+=" in steps else "counted-down" if "-=" in steps else "not-counted"
                guard = any(body[j].text == "if" and body[j + 1].kind == "id" and "<=" in words(body[j:j + 8]) and body[j + 1].text not in names for j in range(1, 3))
                put(3, f, kind, f.name + ": " + x.text + " " + text(head) + (", with a test of the room in it" if guard else ""), x.line)


# ---- 4: equality, order, copies, conversion and printing by hand

BY_NAME = [
    ("equality", r"^same_|^shares_|_is$|^has_ids$|^is_stored$|^is_same$|^shares$|^eq$|^has_key$|^is_same_key$"),
    ("is-zero", r"^is_zero_|^is_no_|^(ids|replicas)_clear$|^no_(ids|replicas)$|^zero_inside$|^is_unset$|^is_zero$|^is_none$|^no_(leaders|replicas)$"),
    ("zero", r"^zero$|^none$|^zero_|^no_(name|label|marks|node|table|tablet|placement|retirement)s?$|^nothing_found$|^none_chosen$"),
    ("order", r"^comes_before$|_after$(?<!marks_after)|^key_le$|^better$|^is_before$|^is_better$"),
    ("min-max", r"^larger$|^clamped$|^within_room$|^used$"),
    ("conversion", r"^wide|^count_of$|^low$|^number$|^number[48]$|^place$|^looked$|^one$|^first_line$|^placement_ids$|^(node|tablet|placement|retirement)_(row|bytes)$"
                   r"|^(nodes|tablets|placements|retirements|store)_of$|^with_operands$|^report$|^write_answer$"),
    ("decoding", r"_at$|_ids_at$"),
    ("copy", r"^(?!put_)\w+_field$|^moved$|^opened$|^with_"),
    ("printing", r"^put_|^put$|^digit$|^print_|^say_|^emit$"),
]


def point4(t):
    for f in t.fns:
        for kind, rule in BY_NAME:
            if re.search(rule, f.name) and f.name != "put_placement" and (kind != "printing" or f.crate != "table") and (kind != "decoding" or f.crate in ("decode", "decode_rows")):
                put(4, f, kind, f.name)
                break
        # ids compared by their number
        for i in sites(f, ".", "0", lambda x: x.text in ("==", "!=", "<", "<=")):
            put(4, f, "id-compared", f.name + ": " + text(f.body[max(0, i - 3):i + 3]), f.body[i].line)
        # a field copied to a local
        for i in sites(f, "let", lambda x: x.kind == "id", "=", lambda x: x.kind == "id", "."):
            k = i + 4
            while f.body[k].text == "." and f.body[k + 1].kind in ("id", "num"):
                k += 2
            if f.body[k].text == ";":
                name = f.body[i + 1].text
                lent = sites(f, "&", name) or sites(f, name, "[")
                put(4, f, "copied-to-lend" if lent else "field-named", f.name + ": " + text(f.body[i:k]), f.body[i].line)
        for i in sites(f, "as", lambda x: x.text in INTS):
            put(4, f, "as", f.name + ": " + text(f.body[max(0, i - 3):i + 2]), f.body[i].line)
    for name, (crate, source, ts) in t.files.items():
        for m in re.finditer(r"#\[derive\(([^)]*)\)\]", source):
            PLACES.append((4, name, source.count("\n", 0, m.start()) + 1, "derive", m[1]))


# ---- 5: facts and parameters that come again

def conjuncts(ts):
    while len(ts) > 1 and ts[0].text == "(" and closing(ts, 0) == len(ts) - 1:
        ts = ts[1:-1]
    parts = split(ts, "×")
    return [ts] if len(parts) == 1 else [c for p in parts for c in conjuncts(p)]


def fact(c, names):
    out = []
    for i, t in enumerate(c):
        plain = t.kind == "id" and not (i and c[i - 1].text == ".")
        out.append("_" if plain and t.text in names else "#" if t.kind == "num" else "ROOM" if ROOM.match(t.text) else t.text)
    return re.sub(r" ?\. ?", ".", re.sub(r"\b(record )?{.*", "{..}", " ".join(out)))


PHRASES = [
    ("view_.. (lent_.. n rows)", r"view_\w+ \( lent_\w+"),
    ("lent_store held nodes tablets placements retirements", r"lent_store"),
    ("view_.. t of a table by value", r"view_\w+ (?!\()"),
    ("take t.count t.rows", r"take \w+ \. count \w+ \. \w+"),
    ("take n list", r"take \w+ \w+\b(?! \.)"),
    ("Appended text out.old at out.new result", r"Appended"),
    ("command_at b tape.now at", r"command_at"),
    ("length rows ≡ a room", r"length \w+ \. (now|old) ≡ \w+_room"),
    ("sound .. ≡ true", r"\bsound \S.*≡ true"),
    ("sound_table .. ≡ true", r"sound_table .*≡ true"),
    ("Whole ..", r"\bWhole\b"),
    ("Ready ..", r"\bReady\b"),
    ("Empty ..", r"\bEmpty\b"),
]


def point5(t):
    facts, phrases, runs = (collections.defaultdict(dict) for _ in range(3))
    for f in t.fns:
        names = set(f.names())
        for side in ("requires", "ensures"):
            for c in [x for e in getattr(f, side) for x in conjuncts(e)]:
                s = fact(c, names)
                if len(s) > len("result ≡ _"):
                    facts[side + " " + s][id(f)] = f
        for kind, rule in PHRASES:
            if any(re.search(rule, " ".join(words(c))) for c in f.requires + f.ensures):
                phrases[kind][id(f)] = f
        ps = []
        for n, ty in f.fields:
            n, ty = text(n), text(ty).replace("&mut", "&")
            row = re.match(r"&\s?\[(Node|Tablet|Placement|Retirement)Row\]", ty)
            ps.append("&[" + row[1] + "Row]" if row else (n.split("_")[-1] if ty in INTS else n) + ": " + ty)
        for i in range(len(ps)):
            for j in range(i + 2, len(ps) + 1):
                runs[tuple(ps[i:j])][id(f)] = f
    for s, fs in facts.items():
        if len(fs) > 2:
            for f in fs.values():
                put(5, f, "fact", "%s [%d]: %s" % (s, len(fs), f.name))
    for s, fs in phrases.items():
        if len(fs) > 2:
            for f in fs.values():
                put(5, f, "phrase", "%s [%d]: %s" % (s, len(fs), f.name))
    for r, fs in runs.items():
        # only the longest run that these functions share
        longer = any(len(q) > len(r) and set(fs) == set(gs) and any(q[k:k + len(r)] == r for k in range(len(q))) for q, gs in runs.items())
        if len(fs) > 2 and not longer:
            for f in fs.values():
                put(5, f, "together", "(%s) [%d]: %s" % (", ".join(r), len(fs), f.name))


# ---- 6: buffers with a length beside them

LENGTH = re.compile(r"(^|_)(count|len|have|used|n|m|to|last|left)$")
SORTED = re.compile(r"^(find_index|opened_rows|rising|has|(nodes|tables|tablets|placements|retirements)_(with|put))$")


def point6(t):
    for s in t.structs:
        arrays = [text(n) for n, ty in s.fields if text(ty).startswith("[")]
        lengths = [text(n) for n, ty in s.fields if text(ty) in INTS and LENGTH.search(text(n))]
        if arrays and lengths:
            put(6, s, "type", "%s {%s; %s}" % (s.name, ", ".join(lengths), ", ".join(arrays)))
        if s.name == "Held" or not arrays and len([ty for ty in s.types() if ty == "usize"]) > 3:
            put(6, s, "type", s.name + " {" + ", ".join(n for n, ty in zip(s.names(), s.types()) if ty == "usize") + "}, the rows elsewhere")
    tables = {s.name for s in t.structs if {"count", "rows"} <= set(s.names())}
    for f in t.fns:
        ns, ts = f.names(), f.types()
        for k in range(len(ns) - 1):
            if re.match(r"&?(mut)?\s?\[", ts[k]) and ts[k + 1] in INTS and LENGTH.search(ns[k + 1]):
                put(6, f, "list-and-count", "%s(%s: %s, %s)" % (f.name, ns[k], ts[k], ns[k + 1]))
            if ns[k:k + 2] == ["from", "to"] and ts[k] == "usize":
                put(6, f, "from-to", f.name)
        # an array by value, in or out
        for n, ty in list(zip(ns, ts)) + ([("result", text(f.ret))] if f.ret else []):
            if ty.startswith("[") and ";" in ty:
                put(6, f, "array-by-value", "%s: %s: %s" % (f.name, n, ty))
            if n != "result" and ty in tables:
                put(6, f, "table-by-value", "%s: %s: %s" % (f.name, n, ty))
        # a sorted list searched, kept or grown by hand
        if any(SORTED.match(w) for w in f.says(*f.ensures)):
            put(6, f, "sorted-list", f.name)
        # two lists read side by side
        read = collections.defaultdict(set)
        for i in sites(f, lambda x: x.kind == "id", "[", lambda x: x.kind == "id", "]"):
            if f.body[i + 4:i + 5] and f.body[i + 4].text != "=":
                read[f.body[i + 2].text].add(f.body[i].text)
        for index, lists in read.items():
            if len(lists) > 1:
                put(6, f, "side-by-side", f.name + ": " + ", ".join(sorted(lists)))
        if f.name == "placement_ids":
            put(6, f, "side-by-side", f.name + ": the ids beside the rows")
        # a row by its index
        if "i" in ns and ts[ns.index("i")] == "usize":
            put(6, f, "index", f.name)


# ---- 7: which step to run

def point7(t):
    for f in t.fns:
        tests = collections.defaultdict(list)
        for i in sites(f, "if", lambda x: x.kind == "id", lambda x: x.text in ("==", "<="), lambda x: x.kind == "num"):
            tests[f.body[i + 1].text].append(f.body[i].line)
        for name, lines in tests.items():
            if len(lines) > 1:
                put(7, f, "chain", "%s: if %s .. %d times" % (f.name, name, len(lines)), lines[0])
            elif name in ("b", "domain", "j") and name in f.names():
                put(7, f, "switch", "%s: if %s" % (f.name, name), lines[0])
        for i in sites(f, "if", None, ".", None, ".", "kind", "==") + sites(f, "if", None, ".", "kind", "=="):
            put(7, f, "switch", f.name + ": if kind", f.body[i].line)
        if re.match(r"put_from_(?!marks)|put_dump_line", f.name):
            put(7, f, "chain-of-functions", f.name)
        if f.ensures and words(f.ensures[0])[:3] == ["result", "≡", "entry"]:
            put(7, f, "guarded-step", f.name)
        if f.crate == "questions" and sites(f, "sound", "("):
            put(7, f, "guarded-step", f.name)
        # what stands at a place of the tape, and a step for each case
        if sites(f, "Next", "::", "Whole") and sites(f, "match"):
            put(7, f, "walk-of-the-tape", f.name)
        for n, ty in f.fields:
            if any(x.text in ("dyn", "impl") or x.text == "fn" for x in ty):
                put(7, f, "closure", f.name)


# ---- 8: proofs

NAME = re.compile(r"[A-Za-z_][\w'-]*|\d+|[^\s\w]")
LEMMA = re.compile(r"^( *)(?:abbrev )?(?:pub )?([^\s:(){}=,]+) : ")
SAME = set("rw search omega arith refl sym ap record let in unfolding".split())


def stated(source):
    """The lemmas and definitions of an .antt file: name, line, text. Fields of records are passed over."""
    lines, i, record = source.split("\n"), 0, None
    while i < len(lines):
        deep = len(lines[i]) - len(lines[i].lstrip())
        if re.match(r" *(pub )?(record|data) ", lines[i]):
            record = deep
        elif lines[i].strip() and record is not None and deep <= record:
            record = None
        m = LEMMA.match(lines[i])
        j = i + 1
        if m and record is None and m[2] not in ("--", "let"):
            while j < len(lines) and lines[j].strip() and (len(lines[j]) - len(lines[j].lstrip()) > deep or lines[j].strip().startswith((m[2] + " ", "unfolding"))):
                j += 1
            yield m[2], i + 1, "\n".join(lines[i:j])
        i = j


def point8(t):
    crates = os.path.join(t.root, "crates")
    texts, n, laws, named = collections.defaultdict(list), collections.Counter(), collections.defaultdict(list), collections.defaultdict(list)
    for d, _, fs in sorted(os.walk(crates)):
        for file in sorted(f for f in fs if f.endswith(".antt")):
            name = os.path.relpath(os.path.join(d, file), crates)
            part = name.split("/")[1]
            if part not in ("proofs", "specs"):
                continue
            source = open(os.path.join(d, file)).read()
            which = part if part == "specs" else file[:-5] if file in ("Answers.antt", "Invariants.antt", "Lib.antt") else "laws"
            n[which + ", lines"] += source.count("\n")
            n[which + ", files"] += 1
            if which == "Answers":
                for block in re.split(r"\n\s*\n", source):
                    m = re.search(r"^pub (\S+) : goal\.\S+$", block, re.M)
                    if m:
                        line = source.count("\n", 0, source.index(m[0])) + 1
                        answer = block[block.index(m[0]) + len(m[0]):].strip()
                        answer = re.sub(r"\s+", " ", re.sub(r"\A(unfolding [^\n]*\n)?%s( \S+)*? = " % re.escape(m[1]), "", answer))
                        texts[answer].append((name, line, m[1]))
                        n["goals answered"] += 1
            elif which in ("laws", "specs"):
                for law, line, words_ in stated(source):
                    seen, out = {}, []
                    for w in NAME.findall(words_):
                        out.append("v%d" % seen.setdefault(w, len(seen)) if re.match(r"[A-Za-z_]", w) and w not in SAME else w)
                    laws[which, " ".join(out)].append((name, line, law))
                    named[which, law].append((name, line, law))
                    n[which + ", statements"] += 1
                for m in re.finditer(r"^ *pub ruleset (\S+)", source, re.M):
                    PLACES.append((8, name, source.count("\n", 0, m.start()) + 1, "ruleset", m[1]))
    for a, at in sorted(texts.items(), key=lambda x: -len(x[1])):
        kind = ("search rules" if a == "search rules" else "search LAW" if re.fullmatch(r"search [^\s(),]+( depth \d+)?", a)
                else "search (..)" if re.fullmatch(r"search \(.*\)( depth \d+)?", a) else "rw (..)" if a.startswith("rw") else "other")
        for name, line, goal in at:
            PLACES.append((8, name, line, "answer " + kind, "%s = %s [%d]" % (goal, a[:120], len(at))))
        if len(at) > 2:
            PLACES.append((8, at[0][0], at[0][1], "text three times or more", "%d times: %s" % (len(at), a[:120])))
            n["goals answered by such a text"] += len(at)
    for (which, _), at in laws.items():
        if len(at) > 1:
            n["groups of twins, " + which] += 1
            for name, line, law in at:
                PLACES.append((8, name, line, "twin of " + which, "%d: %s" % (n["groups of twins, " + which], law)))
    for (which, law), at in sorted(named.items()):
        if which == "laws" and len({x[0].split("/")[0] for x in at}) > 1:
            n["names that two or more crates give a law"] += 1
    return n


USES = {"answer search LAW", "answer search (..)", "answer rw (..)", "answer other"} | set("gives taken-apart flag-asked reason-test number-test number-given not-counted for id-compared field-named as derive phrase array-by-value table-by-value".split())


def main(args):
    only = {int(a) for a in args if a in "12345678"}
    root = ([a for a in args if a not in "12345678" and not a.startswith("--")] + ["."])[0]
    t, more = Tree(root), {}
    for p in range(1, 9):
        if not only or p in only:
            more[p] = globals()["point%d" % p](t)
    out = []
    if "--totals" not in args:
        out = ["%d %s:%d %s: %s" % (p, file, line, kind, what) for p, file, line, kind, what in PLACES] + [""]
    out.append("%d functions, %d structs, %d enums in %d files" % (len(t.fns), len(t.structs), len(t.enums), len(t.files)))
    for p in sorted(more):
        here = [x for x in PLACES if x[0] == p]
        uses = [x for x in here if x[3] in USES]
        out.append("point %d: %d places, %d uses" % (p, len(here) - len(uses), len(uses)))
        groups = collections.defaultdict(set)
        for x in here:
            groups[x[3]].add(re.sub(r" \(.*| \[\d+\].*", "", x[4]) if p == 2 else re.sub(r"(?<=\]).*", "", x[4]))
        for kind, n in collections.Counter(x[3] for x in here).items():
            out.append("    %-28s %5d%s%s" % (kind, n, ", groups %d" % len(groups[kind]) if p in (2, 5) else "", " (use)" if kind in USES else ""))
        if p in (2, 5, 6):
            out.append("    %-28s %5d" % ("functions and types, each once", len({x[1:3] for x in here})))
        if p == 8:
            out += ["    %-28s %5d" % k for k in sorted(more[8].items())]
    try:
        print("\n".join(out), flush=True)
    except BrokenPipeError:
        sys.stderr.close()


main(sys.argv[1:])
