#!/usr/bin/env python3
"""Brings the repository's own definitions and lemmas to today's naming: camel and kebab names become snake case.

usage: respell.py [TOP]          respells, and writes the map to TOP/tools/respelled.txt
       respell.py --dry [TOP]    shows the map and the collisions, and writes nothing
       respell.py --check [TOP]  lists each name that is imported from an own module that does not declare it, and counts them

Run it on the state that port.py leaves. A second run changes nothing. It reads no git and no network.

What turns: in crates/*/{specs,proofs}/**/*.antt each name that begins with a small letter and has a capital or a dash inside,
unless the file imports it from a module that is not the repository's, or it is a proof of a step (its type begins with tie. or goal.).
Behind a dot: the names that own texts declare, but nothing behind tie., lts., reads. and other modules that are not own.
In *.rt: the same in clauses and `ghost use` items. In must-fail/*.edit: the same, by the file that the edit is of.
In comments: own camel names, and own kebab names in backquotes.
A new name that falls together with another name of some file gets a suffix, the same in all files: a kebab name _lem, a camel name _of
(the_ in front where that falls together again, or where the name ends in _of already).
"""

import collections
import os
import re
import sys

NAME = r'[^\s(){}.;,@"«»]+'
WORD = re.compile(NAME)
QUIET = re.compile(r'"(?:[^"\\\n]|\\.)*"|(?<![^\s(){}.;,@"«»])--[^\n]*|\{-.*?-\}', re.S)
BLOCK = re.compile(r"(?<![^\s(){};,])(?:where|do|let|mutual) +(?=\S)")
USE = re.compile(r"(?m)\b(?:ghost\s+)?use\s+([^\s;{]+?)\.?(?:\{([^;}]*)\})?(?:\s+as\s+([^\s;]+))?(?=\s*(?:;|$))")
DECL = re.compile(rf"(?m)^( *)((?:(?:pub|abbrev|unfoldable|opaque|axiom|pattern|data|record)\s+)*)({NAME})((?:\s+\{{[^{{}}\n]*\}})?\s*):(?=\s)")
HEADED = re.compile(rf"(?m)^ *(?:(?:pub|deriving)\s+)*(data|record)\s+({NAME})")
CHAIN = re.compile(rf"({NAME}|»|\))?((?:\.{NAME})+)")
RUST = re.compile(
    r"""//[^\n]*|/\*.*?\*/|[bc]?r(#*)".*?"\1|[bc]?"(?:\\.|[^"\\])*"|b?'(?:\\u\{[0-9a-fA-F_]+\}|\\x..|\\.|[^'\\])'|'?\w+|\s+|.""",
    re.S,
)
CLAUSE = re.compile(
    r"(?:requires|ensures|decreases|invariant)\s*\*?\s*(?:\w+\s*)?\{|ghost\s*(?:\w+\s*(?::\s*(?:(?:owns|lends)\s*)?|=\s*))?\{"
)
GHOST_USE = re.compile(r"ghost\s+use\b[^;]*;")
RESERVED = set(
    """data record deriving module where use mod pub package open as unfoldable abbrev axiom unfold unfolding ruleset mutual
    infix infixl infixr elim let in do Type coe fcoe tcoe hcom com opaque pattern
    old new now result entry exit self requires ensures ghost search simp omega rw by_contra""".split()
)
# What the Prelude of std and its Common pass on, so that no own word is spelled so. (Read from an installed Rattle when it stands there.)
LIBRARY = "/opt/rattle/rattle/std"
PRELUDE = set(
    """is_some is_none is_ok is_err nat_eq nat_lt nat_le slice_get slice_index slice_index_or slice_set slice_range bit_and bit_or
    bit_xor count_ones unsigned_abs int_lt int_le int_div int_rem is_nan to_bits from_bits vec_items vec_len vec_capacity
    string_bytes string_len string_capacity string_eq string_cmp box_value encode_utf8_all bytes_eq sum_by count_by swap_remove
    take_while flat_map filter_map unwrap_or ok_or option_map option_to_list option_and_then option_copied encode_utf8 alloc_error
    get_or neg_ℤ nat_abs btree_map_len hash_map_len btree_set_len hash_set_len deque_items deque_len deque_capacity rc_value
    heap_items heap_len nat_cmp int_cmp int_eq is_eq is_lt is_le is_gt is_ge ⊎_elim append_assoc le_trans lt_trans le_of_eq le_refl
    lt_of_lt_of_le lt_of_le_of_lt le_of_lt add_assoc lt_irrefl mul_assoc mul_comm add_comm le_antisymm ne_of_gt ne_of_lt
    mul_right_comm mul_left_comm add_left_cancel""".split()
)


def turns(word):
    """Is it a name that is no snake case yet?"""
    return word[0].islower() and (
        re.search(r"[^\W\d_][\d']*-[\w]|\d-\w", word) is not None or re.search(r"[a-z0-9_'][A-Z]", word) is not None
    )


def snake(word):
    word = re.sub(r"(?<=[a-z0-9'])([A-Z]+)(?![a-z])", lambda m: "_" + m[0].lower(), word)
    word = re.sub(r"(?<=[a-z0-9'])[A-Z]", lambda m: "_" + m[0].lower(), word)
    return re.sub(r"-+", "_", word).replace("_-", "_")


def between(pattern, text, inside, outside):
    out, at = [], 0
    for m in pattern.finditer(text):
        out += [outside(text[at : m.start()]), inside(m)]
        at = m.end()
    return "".join(out + [outside(text[at:])])


def blanked(text):
    return QUIET.sub(lambda m: re.sub(r"[^\n]", " ", m[0]), text)


def realigned(old, new):
    """The new text, in which the later lines of a block stand under its first item again. (As in port's snake.py.)"""
    was, now, lines = blanked(old).split("\n"), blanked(new).split("\n"), new.split("\n")
    by = [0] * len(lines)
    for row, (a, b) in enumerate(zip(was, now)):
        for x, y in zip(BLOCK.finditer(a), BLOCK.finditer(b)) if a != b else ():
            below = row + 1
            while x.end() != y.end() and below < len(was):
                if was[below].strip() and was[below][: x.end()].strip():
                    break
                by[below] += (y.end() - x.end()) * bool(was[below].strip())
                below += 1
    return "\n".join(" " * n + line if n >= 0 else line[-n:] for n, line in zip(by, lines))


def closing(text, at):
    depth = 0
    for m in re.compile(QUIET.pattern + r"|[{}]", re.S).finditer(text, at):
        depth += (m[0] == "{") - (m[0] == "}")
        if depth < 0:
            return m.start()
    return None


def parts_of_rust(text):
    """Cuts a .rt file: pairs of a kind (antt, comment, rust, quoted) and a text."""
    parts, at = [], 0
    while at < len(text):
        m = RUST.match(text, at)
        word, end = m[0], m.end()
        clause = CLAUSE.match(text, at) if word in ("requires", "ensures", "ghost", "decreases", "invariant") else None
        use = GHOST_USE.match(text, at) if word == "ghost" else None
        if use:
            end = use.end()
            parts.append(("antt", use[0]))
        elif clause and closing(text, clause.end()):
            end = closing(text, clause.end())
            parts += [("rust", clause[0]), ("antt", text[clause.end() : end])]
        else:
            kind = "comment" if word[:2] in ("//", "/*") else "quoted" if word[-1:] == '"' else "rust"
            parts.append((kind, word))
        at = end
    return parts


class File:
    def __init__(self, top, where):
        self.top, self.where = top, where
        with open(os.path.join(top, where), encoding="utf-8") as f:
            self.text = f.read()
        steps = where.split("/")
        self.crate, self.kind = steps[1], where.rsplit(".", 1)[1]
        self.rust = set()
        if self.kind == "antt":
            self.module = "Rattle." + ".".join([self.crate, *steps[2:]])[: -len(".antt")]
            self.code = blanked(self.text)
        elif self.kind == "rt":
            self.module = None
            self.parts = parts_of_rust(self.text)
            self.code = "\n".join(t for kind, t in self.parts if kind == "antt")
            self.code = blanked(self.code)
            rust = "".join(t for kind, t in self.parts if kind == "rust")
            self.rust = set(re.findall(r"(?<![.\w])[A-Za-z_]\w*", rust))
            self.labels = set(re.findall(r"\w+", rust))

    def read(self, modules, crates):
        """Notes what the file imports and declares."""
        self.imports = []  # (module, name, alias)
        self.aliases = {}  # a module's short name: the module
        for m in USE.finditer(self.code):
            path, items, alias = m.groups()
            if items is None:
                self.aliases[alias or path.split(".")[-1]] = path
                continue
            for item in items.split(","):
                item = item.strip()
                if item:
                    a, _, b = item.partition(" as ")
                    self.imports.append((path, a.strip(), (b or a).strip()))
        is_own = lambda path: path in modules
        self.foreign = {a for path, a, b in self.imports if not is_own(path)}
        self.foreign_heads = {a for a, path in self.aliases.items() if not is_own(path)} | {"goal"}
        self.declared, self.steps, self.fields = {}, set(), set()
        if self.kind != "antt":
            return
        code = USE.sub(lambda m: re.sub(r"[^\n]", " ", m[0]), self.code)
        for m in DECL.finditer(code):
            marks, name = m[2].split(), m[3]
            if name in RESERVED:
                continue
            rest = code[m.end() :]
            stop = re.search(rf"\n(?! {{{len(m[1]) + 1}}})(?= *\S)", rest)
            kind = rest[: stop.start() if stop else len(rest)]
            self.declared.setdefault(name, kind)
            if not m[1] and re.match(r"\s*(?:tie|goal)\.", kind):
                self.steps.add(name)
        for m in HEADED.finditer(code):
            self.declared.setdefault(m[2], "Type 0")
            indent = len(m[0]) - len(m[0].lstrip(" "))
            block = code[m.end() :]
            stop = re.search(rf"\n(?! {{{indent + 1}}})(?= *\S)", block)
            block = block[: stop.start() if stop else len(block)]
            for n in re.finditer(rf"(?m)^ +(?:pub +)?((?:{NAME} +)*{NAME}) +:(?=\s)", block.partition("where")[2]):
                self.fields.update(n[1].split())
        # more than one name in a signature, as `pub a b : T`
        for m in re.finditer(rf"(?m)^( *)((?:pub|abbrev|unfoldable)\s+)*((?:{NAME} +)+{NAME}) +:(?=\s)", code):
            for name in m[3].split():
                if name not in RESERVED:
                    self.declared.setdefault(name, "")

    def words(self):
        """The names in its code: those behind no dot, those behind a dot, and those right behind an own module."""
        free, dotted, modular = set(), set(), set()
        self.each(self.code, lambda w: free.add(w), lambda w, behind_module: (modular if behind_module else dotted).add(w))
        return free, dotted, modular

    def each(self, text, free, dotted):
        """Rewrites code: free and dotted return a new spelling or None."""

        def chain(m):
            head, tail = m[1] or "", m[2]
            if not tail:
                return head
            names = tail[1:].split(".")
            new = (free(head) or head) if head not in ("", ")", "»") else head
            if head in self.foreign_heads:
                return new + tail
            return new + "".join("." + (dotted(n, at == 0 and head in self.aliases) or n) for at, n in enumerate(names))

        def use(m):
            path, items, alias = m.groups()
            head = m[0][: m.start(2) - m.start() if items is not None else len(m[0])]
            if items is None:
                if alias:
                    return m[0][: m.start(3) - m.start()] + (free(alias) or alias)
                return m[0]
            one = lambda w: free(w[0]) or w[0]
            new = WORD.sub(one, items)
            new = re.sub(rf"(?<![^\s{{,])({NAME}) as «?({NAME})»?", lambda n: n[1] if n[1] == n[2] else n[0], new)
            return head + new + m[0][m.end(2) - m.start() :]

        pattern = re.compile(rf"({NAME}|»|\))?((?:\.{NAME})*)")
        plain = lambda t: re.sub(
            rf"(?:{NAME}|»|\))?(?:\.{NAME})+|{NAME}",
            lambda m: chain(pattern.fullmatch(m[0])) if "." in m[0] else (free(m[0]) or m[0]),
            t,
        )
        return between(USE, text, use, plain)


class Repository:
    def __init__(self, top):
        self.top = top
        self.crates = sorted(os.listdir(os.path.join(top, "crates")))
        self.files, self.edits = [], []
        for crate in self.crates:
            for part in ("specs", "proofs", "src", "must-fail"):
                for folder, folders, files in os.walk(os.path.join(top, "crates", crate, part)):
                    folders.sort()
                    for f in sorted(files):
                        where = os.path.relpath(os.path.join(folder, f), top).replace(os.sep, "/")
                        if f.endswith(".edit"):
                            self.edits.append(where)
                        elif f.endswith((".antt", ".rt")):
                            self.files.append(File(top, where))
        self.modules = {f.module.removesuffix(".Lib"): f for f in self.files if f.module}
        for f in self.files:
            f.read(self.modules, self.crates)

    def plan(self):
        """Finds the map of the new spellings."""
        files = self.files
        for f in files:
            # a library's name that an own module passes on
            for path, name, alias in f.imports:
                m = self.modules.get(path)
                if m and name not in m.declared and name in m.foreign:
                    f.foreign.add(name)
            f.free, f.dotted, f.modular = f.words()
            f.own = {w for w in f.free if turns(w) and w not in f.foreign and w not in f.steps}
        self.declared = set().union(*(f.declared for f in files)) - set().union(*(f.steps for f in files))
        self.fields = {w for w in set().union(*(f.fields for f in files)) if turns(w)}
        self.labels = set().union(*(f.labels for f in files if f.kind == "rt"))
        for f in files:
            f.behind = f.dotted & self.fields
            f.modular = {w for w in f.modular if turns(w) and w in self.declared}
            # In the lemmas' own files, a label or a field of the Rust has its spelling from there.
            f.label = set()
            if not f.where.endswith("/Proof.antt"):
                f.label = {w for w in f.dotted - f.behind if turns(w) and snake(w) in self.labels}
        own = set().union(*(f.own | f.behind | f.modular for f in files))
        # facts in small letters become types in UpperCamelCase
        self.facts = {}
        for f in files:
            f.facts = {}
            for name, kind in f.declared.items():
                top = rf"(?m)^(?:(?:pub|abbrev|unfoldable|opaque)\s+)*{re.escape(name)}(?:\s+\{{[^}}\n]*\}})?\s*:"
                if name[0].islower() and "?" not in name and name not in f.steps and re.search(r"Type\s+(\d+|ℓ)\s*$", kind) and re.search(top, f.code):
                    new = "".join(p[:1].upper() + p[1:] for p in re.split("[-_]", name))
                    f.facts[name] = new if new not in f.free else new + "Fact"
                    self.facts[name] = f.facts[name]
        for f in files:
            for path, name, alias in f.imports:
                m = self.modules.get(path)
                if m and name in m.facts:
                    f.facts[name] = m.facts[name]
            f.own -= set(f.facts)
        library = set(PRELUDE)
        for name in ("specs/Prelude.antt", "proofs/Common.antt"):
            path = os.path.join(LIBRARY, name)
            if os.path.isfile(path):
                with open(path, encoding="utf-8") as it:
                    library.update(*(WORD.findall(m[2] or "") for m in USE.finditer(it.read())))
        self.map = {w: snake(w) for w in own}
        self.special = {}
        fixed = set(library) | RESERVED
        # A name whose new spelling meets another gives way, until nothing meets.
        for again in range(6):
            bad = collections.defaultdict(set)
            for w, new in self.map.items():
                if new in fixed:
                    bad[w].add("the library" if new in library else "reserved")
            for f in files:
                mine = {w: self.map[w] for w in f.own}
                by = collections.defaultdict(list)
                for w, new in mine.items():
                    by[new].append(w)
                others = f.free - set(mine)
                for new, ws in by.items():
                    if new in others:
                        for w in ws:
                            bad[w].add(f"{new} in {f.where}")
                    if len(ws) > 1:
                        # a field keeps the plain spelling, else the camel name, and the kebab one gives way
                        keeps = sorted(ws, key=lambda w: (w not in self.fields, "-" in w, w))[0]
                        for w in ws:
                            if w != keeps:
                                bad[w].add(f"{keeps} in {f.where}")
                    if f.kind == "rt" and new in f.rust:
                        for w in ws:
                            bad[w].add(f"Rust's {new} in {f.where}")
            if not bad:
                break
            for w in sorted(bad):
                base = snake(w)
                if again == 0:
                    new = base + "_lem" if "-" in w else "the_" + base if base.endswith("_of") else base + "_of"
                elif again == 1:
                    new = "the_" + base
                else:
                    new = f"the_{base}_{again}"
                self.map[w] = new
                self.special[w] = (new, sorted(bad[w]) + list(self.special.get(w, ("", []))[1]))

    def turn(self, f):
        free = lambda w: f.facts[w] if w in f.facts else self.map[w] if w in f.own else None

        def dotted(w, behind_module):
            if behind_module:
                return self.map[w] if w in f.modular else None
            return self.map[w] if w in f.behind else snake(w) if w in f.label else None

        comment = lambda t: self.comment(f, t)
        code = lambda t: f.each(t, free, dotted)
        antt = lambda t: between(QUIET, t, lambda m: m[0] if m[0][0] == '"' else comment(m[0]), code)
        if f.kind == "antt":
            return realigned(f.text, antt(f.text))
        how = {"antt": antt, "comment": comment}
        return "".join(how.get(kind, str)(t) for kind, t in f.parts)

    def comment(self, f, text):
        def camel(m):
            w = m[0]
            return self.map[w] if w in self.camel and w not in f.foreign else w

        def span(m):
            return re.sub(
                r"[a-z][\w'?-]*",
                lambda n: self.map[n[0]] if "-" in n[0] and n[0] in self.declared and n[0] in self.map and n[0] in f.own else n[0],
                m[0],
            )

        text = re.sub(r"(?<![\w.-])[a-z]\w*[A-Z]\w*'*\??", camel, text)
        return re.sub(r"`[^`\n]*`", span, text)

    def turn_edit(self, where):
        with open(os.path.join(self.top, where), encoding="utf-8") as it:
            text = it.read()
        m = re.search(r"(?m)^file: *(\S+)", text)
        target = m and next((f for f in self.files if f.where == "/".join([*where.split("/")[:2], m[1]])), None)
        if not target:
            return text, text
        after = {self.map.get(w, w) if w in target.own else w for w in target.free | target.dotted}
        names = set(self.map) - target.foreign - target.steps

        def free(w):
            if w in target.own or w in names and w in self.declared:
                return self.map[w]
            if turns(w) and w not in target.free and snake(w) in after:
                return snake(w)
            return None

        dotted = lambda w, behind_module: self.map[w] if w in self.fields or behind_module and w in self.declared and w in self.map else None
        new = [x if x.startswith("file:") else target.each(x, free, dotted) for x in re.split(r"(?m)^(file:.*\n)", text)]
        return text, "".join(new)

    def unresolved(self):
        """The imports of own names that no own module declares."""
        out = []
        for f in self.files:
            for path, name, alias in f.imports:
                m = self.modules.get(path)
                if m and name not in m.declared and all(name != i[2] for i in m.imports):
                    out.append(f"{f.where}: {path}.{name}")
        return sorted(out)


def main(args):
    check, dry = "--check" in args, "--dry" in args
    args = [a for a in args if a not in ("--check", "--dry")]
    top = args[0] if args else "."
    it = Repository(top)
    if check:
        bad = it.unresolved()
        print("\n".join([*bad, f"unresolved own imports: {len(bad)}"]))
        return
    it.plan()
    it.camel = {w for w in it.map if "-" not in w}
    changes = []
    if dry:
        for w, (new, why) in sorted(it.special.items()):
            print(f"{w} -> {new}: {'; '.join(why[:3])}{' ..' if len(why) > 3 else ''}")
        print(f"names {len(it.map)}, with a suffix {len(it.special)}, facts {it.facts}")
        return
    for f in it.files:
        new = it.turn(f)
        if new != f.text:
            changes.append((f.where, new))
    for where in it.edits:
        old, new = it.turn_edit(where)
        if new != old:
            changes.append((where, new))
    for where, new in changes:
        with open(os.path.join(top, where), "w", encoding="utf-8", newline="") as out:
            out.write(new)
    if changes:
        lines = [f"{a} -> {b}" for a, b in sorted({**it.map, **it.facts}.items())]
        with open(os.path.join(top, "tools", "respelled.txt"), "w", encoding="utf-8") as out:
            out.write("\n".join(lines) + "\n")
    print(f"names {len(it.map) + len(it.facts)}, with a suffix {len(it.special)}, files changed {len(changes)}")


if __name__ == "__main__":
    main(sys.argv[1:])
