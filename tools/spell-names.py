#!/usr/bin/env python3
"""Respells the repository's own antt names to the house style (CONTRACT_STYLE.md of Rattle, "Names").

usage: python3 tools/spell-names.py     at the top of the repository; a second run changes nothing

`answerOf` becomes `answer_of`, and `five-steps` becomes `five_steps`. A dash stays in a lemma's name where
definitions stand on both sides, as in `length-drop`; fields and locals have none. Names of the kit, names
that Rattle generates and Rust's own names stay. What stays by hand, and why, is in the tables below.
"""

import glob
import os
import re
import subprocess
import sys
from collections import defaultdict

# Names for which the rule isn't right: old -> new.
CHOSEN = {
    "texture2D": "texture_2d",
}

# Lemmas and fields that port.py turned, as `value-row` to `value_row`, where the function is now called so
# (`valueRow`): the file that declares it, the name. They get `_lem` there and where they are imported.
LEMMAS = {
    ("crates/walked/specs/Leaf.antt", "value_row"),
    ("crates/names/specs/Sound.antt", "tail_of"),
    ("crates/readers/specs/Passing.antt", "lists_total"),
    ("crates/resources/specs/OneRow.antt", "row_settled"),
    ("crates/table/specs/Words.antt", "row_word"),
    ("crates/name_faults/proofs/Laws.antt", "is_name"),
    ("crates/targets/specs/Word.antt", "enum_kind"),
    ("crates/xml_import/proofs/Bytes.antt", "one_more"),
    ("crates/entry_theorems/proofs/Laws.antt", "load_told"),
}
# The same for names that are used behind a dot or in a record: (file, old) -> new, unless new is there already.
CHOSEN_IN = {
    ("crates/theorems/specs/Columns.antt", "by_rows"): "by_rows_lem",
    ("crates/theorems/proofs/Both.antt", "by_rows"): "by_rows_lem",
    ("crates/theorems/proofs/columned/load_both/Proof.antt", "by_rows"): "by_rows_lem",
    ("crates/resources/specs/Meaning.antt", "rows_settled"): "rows_settled_lem",
}

# Names of the kit that our specs/ never declare, for the rule about dashes.
KIT_WORDS = set(
    "length drop take append get_or set replicate map reverse add mul min max sum cond leb ltb eqb refl suc "
    "filter foldr concat div mod pow some none true false inl inr".split()
)
# Plain words: a definition may have such a name, but in a longer name it joins nothing.
PLAIN = set(
    "a an the is at in of by to no not and or on as if from with all any one two first last next other same "
    "own new old left right here there then else known found done again behind before after over under".split()
)
# The contracts' module got the name of one that Rattle makes.
MOVED = {"load": ("Contracts", "Promises"), "steps": ("Contracts", "Promises")}

TOKEN = re.compile(r"[^\s(){}\[\];,.\"]+")
USE = re.compile(r"(?m)^([ \t]*(?:pub )?(?:ghost )?use[ ]+)([^\s{};]+?)(\.\{[^}]*\})?( as [^\s;]+)?(;?[ \t]*)$")
NAME = re.compile(r"[^\W\d_][\w'\u2032\u00b7-]*")
MADE = re.compile(r"\.specs\.declared\.|\.proofs\..*\.(?:Tie|Statement|Goals|Kinds|Reads|Lts|\+|Group)|\.proofs\.(?:[^.]*\.)*\+")
STEP = re.compile(r"(-?\d+)?'*$")


def read(p):
    with open(p, encoding="utf-8", newline="") as f:
        return f.read()


def write(p, text):
    with open(p, "w", encoding="utf-8", newline="") as f:
        f.write(text)


def blank(text, marker="--"):
    """The text with strings and comments blanked out, at the same length."""
    out = []
    for line in text.split("\n"):
        line = re.sub(r'"(?:[^"\\]|\\.)*"', lambda m: '"' + " " * (len(m.group()) - 2) + '"', line)
        m = re.search(r"(^|\s)" + marker + r"(\s|$)" if marker == "--" else "//", line)
        out.append(line[: m.start()] + " " * (len(line) - m.start()) if m else line)
    return "\n".join(out)


def lower(t):
    return bool(NAME.fullmatch(t)) and not t[0].isupper()


def turned(t):
    """Whether a name isn't in today's spelling: a hump, a dash, a middle dot or a prime."""
    return lower(t) and bool(re.search(r"[^\WA-Z_][A-Z]|-|\u00b7|\u2032", t))


def snake(segment):
    if segment[:1].isupper():
        return segment
    s = re.sub(r"(?<=[a-z0-9'])(?=[A-Z])", "_", segment)
    return s.lower()


def flat(t):
    """A name with `_` in place of every dash."""
    return "_".join(snake(w) for w in re.split(r"[-\u00b7]", t.replace("\u2032", "'")))


def file_of(path):
    parts = path.split(".")
    return f"crates/{parts[1]}/" + "/".join(parts[2:]) + ".antt"


class Tree:
    """What the files declare and import."""

    def __init__(self):
        self.crates = sorted(c for c in os.listdir("crates") if os.path.isdir(f"crates/{c}/src"))
        self.antt = sorted(p for d in ("specs", "proofs") for p in glob.glob(f"crates/*/{d}/**/*.antt", recursive=True) if "/out/" not in p)
        self.rt = sorted(glob.glob("crates/*/src/**/*.rt", recursive=True))
        self.text = {p: read(p) for p in self.antt + self.rt}
        self.bare = {p: blank(self.text[p], "--" if p.endswith(".antt") else "//") for p in self.text}
        self.top, self.field, self.words = defaultdict(set), defaultdict(set), set(KIT_WORDS)
        self.kit, self.own, self.made = {}, {}, {}
        self.code = set()
        for p in self.rt:
            self.code |= set(re.findall(r"\bfn ([a-z_0-9]+)", self.bare[p]))
        for p in self.antt:
            self.declared(p)
        for p in self.text:
            self.imported(p)

    def declared(self, p):
        made = set()
        inside, kind = [], []
        lines = self.bare[p].split("\n")
        for i, line in enumerate(lines):
            if not line.strip():
                continue
            deep = len(line) - len(line.lstrip())
            while inside and deep <= inside[-1]:
                inside.pop()
                kind.pop()
            if re.match(r"[ \t]*(?:(?:pub|abbrev|unfoldable|unfold)\s+)*(?:record|data)\s", line) and not line.strip().startswith("record {"):
                inside.append(deep)
                kind.append("data" if re.search(r"\bdata\s", line) else "record")
                continue
            m = re.match(r"([ \t]*)((?:(?:pub|abbrev|unfoldable|unfold|ruleset) )*)([^\s(){}\[\];,.\":]+(?: [^\s(){}\[\];,.\":=]+)*)[ \t]*(?:$|:(?:\s|$)|[({].*:)", line)
            if not m or m.group(3) in ("where", "let", "in", "use", "module", "data", "mutual"):
                continue
            names = m.group(3).split()
            if names[0] in ("use", "module", "data", "mod", "pub", "mutual", "unfolding", "open"):
                continue
            if inside and deep > 0:
                for n in names:
                    self.field[n].add(p)
                    if kind[-1:] == ["data"] and "-" not in n and n not in PLAIN:
                        self.words.add(snake(n))
            elif deep == 0 or m.group(2):
                for n in names[:1]:
                    chunk = line
                    for more in lines[i + 1 :]:
                        if more[:1].strip():
                            break
                        chunk += " " + more
                    if p.endswith("Proof.antt") and (re.search(r"\btie\.|\bstatement\b|-kinds|-lts|-reads|\bInv", chunk.split(" = ")[0]) or n.endswith("spec")):
                        made.add(n)
                        continue
                    self.top[n].add(p)
                    if "/specs/" in p and "-" not in n and n not in PLAIN:
                        self.words.add(snake(n))
        self.made[p] = made

    def imported(self, p):
        kit, own, made = set(), {}, self.made.setdefault(p, set())
        for m in USE.finditer(self.bare[p]):
            path = m.group(2).split(".")
            mine = path[0] in ("Rattle",) and len(path) > 1 and path[1] in self.crates
            names = [n.strip().split(" as ")[0].strip() for n in (m.group(3) or "")[2:-1].split(",")] if m.group(3) else []
            if not mine:
                kit |= set(names)
                continue
            if MADE.search(m.group(2) + "."):
                made |= set(names)
                if m.group(4):
                    made.add(m.group(4).split()[1])
                continue
            for n in names:
                if n:
                    own[n] = m.group(2)
        self.kit[p], self.own[p] = kit, own


class Spelling:
    def __init__(self, tree):
        self.tree = tree
        self.memo = {}
        self.present = set(tree.top) | {n for p in tree.text for n in tree.own[p]}
        self.tokens = {p: self.said(p) for p in tree.text}
        self.clash = self.clashes()

    def said(self, p):
        """The names in a file, but for paths, and in a Proof.antt for names that Rattle makes."""
        bare = USE.sub(lambda m: (m.group(3) or "")[1:], self.tree.bare[p])
        if p.endswith("Proof.antt"):
            bare = re.sub(r"\.[^\s(){}\[\];,.\"]+", " ", bare)
        found = {t for t in TOKEN.findall(bare) if lower(t)}
        return found - self.tree.made[p] if p.endswith("Proof.antt") else found

    def clashes(self):
        """Names with a dash that stand in one file with a function which has their new name."""
        out = set()
        for p, found in self.tokens.items():
            if not p.endswith(".antt"):
                continue
            plain = {snake(t) for t in found if "-" not in t}
            for t in found:
                if "-" in t and t not in self.tree.kit[p] and flat(t) in plain:
                    if any(flat(t) == snake(u) and (u in self.tree.top or u in self.tree.own[p] or turned(u)) for u in found if "-" not in u):
                        out.add(t)
        return out

    def lemma(self, t, p, dotted):
        """`t_lem`, where t is one of LEMMAS in this file."""
        tree, new = self.tree, t + "_lem"
        if (p, t) in CHOSEN_IN and CHOSEN_IN[p, t] not in self.tokens[p]:
            return CHOSEN_IN[p, t]
        if dotted or t not in {n for _, n in LEMMAS}:
            return None
        f = p if (p, t) in LEMMAS else file_of(tree.own[p][t]) if t in tree.own[p] else None
        return new if (f, t) in LEMMAS and new not in self.tokens[f] else None

    def new(self, t):
        """The new spelling of an own name."""
        if t not in self.memo:
            self.memo[t] = CHOSEN.get(t) or self.rule(t)
        return self.memo[t]

    def rule(self, t):
        tree = self.tree
        parts = [snake(s) for s in re.split(r"[-\u00b7]", t.replace("\u2032", "'"))]
        plain = flat(t)
        if t in self.clash:
            return re.sub(r"('*)$", r"_lem\1", plain, count=1)
        if len(parts) == 1 or t in tree.field or t not in tree.top or plain in self.present:
            return plain
        out = parts[0]
        for i in range(1, len(parts)):
            left = any(self.word(parts[j:i]) for j in range(i))
            right = any(self.word(parts[i:j]) for j in range(i + 1, len(parts) + 1))
            out += ("-" if left and right else "_") + parts[i]
        return out

    def word(self, parts):
        w = "_".join(parts).rstrip("'")
        return w not in PLAIN and w in self.tree.words

    def of(self, t, p, dotted):
        """The new spelling of a token in the file p, or the token."""
        chosen = self.lemma(t, p, dotted)
        if chosen:
            return chosen
        if not turned(t):
            return t
        tree = self.tree
        mine = t in tree.field or t in tree.top
        if not dotted and t in tree.kit[p] and t not in tree.own[p]:
            return t
        if p.endswith("Proof.antt"):
            if t in tree.made[p]:
                return t
            if dotted:
                step = STEP.sub("", t)
                return self.new(t) if mine and t in tree.field and step.replace("-", "_") not in tree.code else t
            if t in tree.own[p] or p in tree.top.get(t, ()) or t in self.bound(p):
                return self.new(t)
            return self.new(t) if t in tree.field and t.replace("-", "_") not in tree.code else t
        if p.endswith(".rt"):
            return self.new(t) if t in tree.own[p] or re.search("[a-z][A-Z]", t) or mine else t
        if dotted and not mine:
            return t
        return self.new(t)

    def bound(self, p):
        """In a Proof.antt: names that it binds itself, but for those that it has from a step of the same name."""
        key = "bound " + p
        if key not in self.memo:
            bare = self.tree.bare[p]
            steps = set(re.findall(r"\.([^\s(){}\[\];,.\"]+)", bare))
            names = set(re.findall(r"(?:\blet |; |^[ \t]+|\bin )([^\s(){}\[\];,.\"]+)(?: [^\s=]+)* [=:](?=\s)", bare, re.M))
            for m in re.finditer(r"\u03bb ([^.]*)\.", bare):
                names |= set(TOKEN.findall(m.group(1)))
            for m in re.finditer(r"[({]([^(){}:]+) : ", bare):
                names |= set(m.group(1).split())
            self.memo[key] = {n for n in names if n not in steps and n not in self.tree.made[p]}
        return self.memo[key]


def spelled(text, bare, spell, p):
    """The text with the tokens of code respelled; bare is the text with strings and comments blanked."""
    uses = [(m.start(2), m.end(2), m.group(2)) for m in USE.finditer(bare)]
    kit = [(m.start(), m.end()) for m in USE.finditer(bare) if foreign(m.group(2), spell.tree)]
    skip = [(a, b) for a, b, _ in uses] + kit
    skip.sort()
    out, at, k = [], 0, 0
    for m in TOKEN.finditer(bare):
        while k < len(skip) and skip[k][1] <= m.start():
            k += 1
        if k < len(skip) and skip[k][0] <= m.start() < skip[k][1]:
            continue
        t = m.group()
        if not lower(t):
            continue
        dotted = m.start() > 0 and bare[m.start() - 1] == "." and bare[max(0, m.start() - 2) : m.start()] != ".."
        if dotted and bare[max(0, m.start() - 5) : m.start()].endswith("tie."):
            continue
        n = spell.of(t, p, dotted)
        if n != t:
            out.append(text[at : m.start()] + n)
            at = m.end()
    return "".join(out) + text[at:]


def foreign(path, tree):
    parts = path.split(".")
    return not (parts[0] == "Rattle" and len(parts) > 1 and parts[1] in tree.crates) or bool(MADE.search(path + "."))


def comments(text, spell, p):
    """Backquoted code in the comments of an antt file."""

    def line(l):
        m = re.search(r"(^|\s)--(\s|$)", re.sub(r'"(?:[^"\\]|\\.)*"', lambda m: '"' + " " * (len(m.group()) - 2) + '"', l))
        if not m:
            return l
        tick = lambda q: "`" + TOKEN.sub(lambda t: spell.of(t.group(), p, False), q.group(1)) + "`"
        return l[: m.start()] + re.sub(r"`([^`]*)`", tick, l[m.start() :])

    return "\n".join(map(line, text.split("\n")))


CLAUSE = re.compile(r"\b(?:requires|ensures|ghost|decreases|invariant|also_owns|also_shares)\b[^{};]*\{")


def clauses(bare):
    """A Rust source's text with all but its ghost use lines and its clauses blanked."""
    keep = [False] * len(bare)
    for m in USE.finditer(bare):
        if "ghost" in m.group(1):
            keep[m.start() : m.end()] = [True] * (m.end() - m.start())
    for m in CLAUSE.finditer(bare):
        deep, i = 1, m.end()
        while i < len(bare) and deep:
            deep += {"{": 1, "}": -1}.get(bare[i], 0)
            i += 1
        keep[m.end() : i] = [True] * (i - m.end())
    return "".join(c if k or c == "\n" else " " for c, k in zip(bare, keep))


def edits(spell, tree):
    for e in sorted(glob.glob("crates/*/must-fail/*.edit")):
        crate, p, out = e.split("/")[1], None, []
        for l in read(e).split("\n"):
            if l.startswith("file: "):
                p = f"crates/{crate}/{l[6:].strip()}"
            elif l.startswith(("old: ", "new: ")) and p in tree.text:
                head, body = l[:5], l[5:]
                bare = re.sub(r'"(?:[^"\\]|\\.)*"', lambda m: '"' + " " * (len(m.group()) - 2) + '"', body)

                def turn(m, p=p, body=body):
                    t = m.group()
                    if p.endswith(".rt") and not re.search("[a-z][A-Z]", t) and t not in tree.top:
                        return t
                    if body[m.end() - 1 : m.end()] == '"':
                        return t
                    return spell.of(t, p, m.start() > 0 and body[m.start() - 1] == ".")

                done, at = "", 0
                for m in TOKEN.finditer(bare):
                    done += body[at : m.start()] + turn(m)
                    at = m.end()
                l = head + done + body[at:]
            out.append(l)
        text = "\n".join(out)
        if text != read(e):
            write(e, text)


def move():
    """Contracts.antt of load and steps become Promises.antt."""
    for crate, (old, new) in MOVED.items():
        a, b = f"crates/{crate}/specs/{old}.antt", f"crates/{crate}/specs/{new}.antt"
        if not os.path.exists(a):
            continue
        if os.path.exists(b):
            raise SystemExit(f"{b} is there already")
        subprocess.run(["git", "mv", a, b], check=True)
        lib = f"crates/{crate}/specs/Lib.antt"
        write(lib, re.sub(rf"(?m)^(pub mod ){old}$", rf"\g<1>{new}", read(lib)))
        for p in sorted(glob.glob("crates/*/*/**/*", recursive=True)):
            if p.endswith((".antt", ".rt", ".edit")) and os.path.isfile(p):
                t = read(p)
                n = re.sub(rf"(Rattle[.\u00b7]{crate}[.\u00b7](?:specs\.)?specs\.){old}(?![\w'-])", rf"\g<1>{new}", t)
                if p.startswith(f"crates/{crate}/must-fail/"):
                    n = re.sub(rf"(?m)^file: specs/{old}\.antt$", f"file: specs/{new}.antt", n)
                if n != t:
                    write(p, n)


def ignore():
    lines = read(".gitignore") if os.path.exists(".gitignore") else ""
    if "crates/*/out/" not in lines.split("\n"):
        write(".gitignore", lines + ("" if lines.endswith("\n") or not lines else "\n") + "crates/*/out/\n")


def missing(tree):
    """Imports of own names that the file of the path does not have."""
    out = []
    for p in sorted(tree.text):
        for n, path in sorted(tree.own[p].items()):
            f = file_of(path)
            if not os.path.exists(f):
                out.append(f"{p}: no file for {path}.{{{n}}}")
                continue
            bare = USE.sub(lambda m: m.group(3) or "" if "pub" in m.group(1) else "", tree.bare[f])
            if n not in TOKEN.findall(bare):
                out.append(f"{p}: {path} has no {n}")
    return out


def collisions(tree, spell):
    """Per file: different old names with one new spelling, where the old ones aren't halves of one own name."""
    out = defaultdict(set)
    for p in tree.text:
        bare = tree.bare[p] if p.endswith(".antt") else clauses(tree.bare[p])
        bare = USE.sub(lambda m: (m.group(3) or "")[1:], bare)
        got = defaultdict(set)
        for m in TOKEN.finditer(bare):
            d = m.start() > 0 and bare[m.start() - 1] == "."
            t = m.group()
            if lower(t):
                got[spell.of(t, p, d)].add(t)
        for n, olds in got.items():
            if len(olds) > 1:
                out[n, tuple(sorted(olds))].add(p)
    return out


def main():
    if not os.path.isdir("crates"):
        raise SystemExit("run it at the top of the repository")
    move()
    ignore()
    names = {}
    for _ in range(5):
        tree = Tree()
        spell = Spelling(tree)
        if "--look" in sys.argv:
            look(tree, spell)
            return
        changed = 0
        edits(spell, tree)
        for p in sorted(tree.text):
            bare = tree.bare[p] if p.endswith(".antt") else clauses(tree.bare[p])
            t = spelled(tree.text[p], bare, spell, p)
            if p.endswith(".antt"):
                t = comments(t, spell, p)
            if t != tree.text[p]:
                write(p, t)
                changed += 1
        names |= {a: b for a, b in spell.memo.items() if isinstance(b, str) and a != b and not a.startswith("bound ")}
        if not changed:
            break
    bad = missing(Tree())
    print(f"spell-names: {len(names)} names respelled; {len(bad)} imports without a declaration")
    print("\n".join(bad[:100]))
    return 1 if bad else 0


def look(tree, spell):
    for (n, olds), ps in sorted(collisions(tree, spell).items()):
        print("fall together:", n, olds, len(ps), sorted(ps)[:3])
    for p in tree.text:
        bare = tree.bare[p] if p.endswith(".antt") else clauses(tree.bare[p])
        for t in sorted({t for t in TOKEN.findall(bare) if turned(t)}):
            if spell.of(t, p, False) != t and spell.of(t, p, False) in tree.kit[p]:
                print("a name of the kit:", p, t)
        if p.endswith(".rt"):
            code = tree.bare[p]
            words = set(re.findall(r"\b([a-z_0-9]+)(?=:[ ])", code)) | set(re.findall(r"\b(?:const|static|let|let mut|type) (\w+)", code))
            for t in sorted(tree.own[p]):
                if spell.of(t, p, False) in words and turned(t):
                    print("a name in the code:", p, t)
    kept = sorted({spell.new(t) for t in tree.top if turned(t) and "-" in spell.new(t)})
    print(len(kept), "keep a dash:", " ".join(kept))
    print("missing now:", *missing(tree), sep="\n  ")


if __name__ == "__main__":
    raise SystemExit(main())
