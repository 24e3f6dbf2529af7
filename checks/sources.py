"""What the sources have by which name, for the checks of pages: the functions of crates/*/src with their clauses, what each type has, and
the definitions of crates/*/specs with what they stand on."""

import collections
import re
import types

from trials import ROOT

BLOCK = re.compile(r"^(?:pub(?:\(\w+\))? )?(?:unsafe )?(impl|trait|struct|enum|union|bitflags!)\b(.*?)(?:\{(\}$|.*?^\})|;$)", re.M | re.S)
HEAD = re.compile(r"^( *)(?:pub(?:\(\w+\))? )?(?:const |unsafe )*(extern \"C\" )?fn (\w+)", re.M)
CLAUSE = re.compile(r"\b(?:ensures|requires)\*? (?:(\w+) )?\{")
PATH = re.compile(r"\b\w+(?:::\w+)+")


def type_of(words):
    """The type of a struct, a trait or an impl, and the trait of an impl."""
    while re.search("<[^<>]*>", words):
        words = re.sub("<[^<>]*>", "", words)
    trait, _, owner = words.split(" where ")[0].rpartition(" for ")
    return re.findall(r"\w+", owner if trait else owner.split(":")[0])[-1], (re.findall(r"\w+", trait) or [None])[-1]


def contract_of(text, indent):
    """The clauses of the function that a text begins with, to where its body begins."""
    end = re.search(rf"(?:^{indent}(?:\S.*)?\{{\}}?|\}};|^{indent}\S.*[;}}])$", text, re.M)
    head = text[: end.end()] if end else text
    first = CLAUSE.search(head)
    return head[first.start() :] if first else ""


class Sources:
    """All functions, with the crate, the module, the type or trait where each stands, and its clauses; and by the name of each of these what stands in it."""

    def __init__(self):
        self.functions, self.members, aliases = [], collections.defaultdict(set), []
        for file in sorted(ROOT.glob("crates/*/src/**/*.rt")):
            text, crate = file.read_text(), file.relative_to(ROOT / "crates").parts[0]
            blocks = [(it, *(type_of(it[2]) if it[2].strip() else ("", None))) for it in BLOCK.finditer(text)]
            used = " ".join(re.findall(r"^pub use (.*?);", text, re.M | re.S))
            values = re.findall(r"^(?:pub(?:\(\w+\))? )?(?:const|type|static) (\w+)", text, re.M)
            self.members[crate] |= {file.stem, *re.findall(r"\w+", used), *values}
            aliases += re.findall(r"^pub type (\w+)\b.*? = (\w+)", text, re.M)
            for block, owner, _ in blocks:
                self.members[crate].add(owner)
                self.members[file.stem].add(owner)
                self.members[owner] |= set(re.findall(r"^ +(?:pub(?:\(\w+\))? )?(?:const |ghost )?(\w+)", block[3] or "", re.M))
            for head in HEAD.finditer(text):
                _, owner, trait = next((it for it in blocks if it[0].start() <= head.start() < it[0].end()), (None, None, None))
                where = {"crate": crate, "module": file.stem, "owner": owner, "trait": trait}
                contract = contract_of(text[head.start() :], head[1])
                self.functions.append(types.SimpleNamespace(**where, name=head[3], is_export=head[2], contract=contract))
        for it in self.functions:
            for scope in [it.crate, it.module, it.owner]:
                self.members[scope].add(it.name)
            if it.trait and not it.contract:
                it.contract = next((of.contract for of in self.functions if of.owner == it.trait and of.name == it.name), "")
        for alias, owner in aliases:
            self.members[alias] |= self.members.get(owner, set())

    def named(self, crate, *owner, name):
        """The functions of a crate of this name: of a type or a module, or of neither."""
        return [it for it in self.functions if (it.crate, it.name) == (crate, name) and (owner[0] in (it.owner, it.module) if owner else not it.owner)]

    def absent(self, path):
        """The first part of a path that the part before it, where that is one of these sources, doesn't have."""
        parts = path.split("::")
        return next((f"{one}::{other}" for one, other in zip(parts, parts[1:]) if one in self.members and other not in self.members[one]), None)


class Definitions:
    """The definitions of crates/*/specs, each by its file and its name with its lines, and by file the names that are used there."""

    def __init__(self):
        self.lines, self.scopes, self.files = {}, {}, {}
        for file in sorted(ROOT.glob("crates/*/specs/*.antt")):
            at, key, is_data, pad = f"{file.parent.parent.name}/{file.stem}", None, False, ""
            self.scopes[at], self.files[at] = {}, []
            for line in (re.sub(r"\s*--( .*)?$", "", it) for it in file.read_text().splitlines()):
                if used := re.match(r"use Rattle\.(\w+)\.specs\.([\w.]+?)(?:\.\{(.*)\})?(?: as (\w+))?$", line):
                    self.use(at, *used.groups())
                pad = "  " if line.startswith("module ") else pad if line.startswith(" ") or not line else ""
                if not line or re.match(r"(use|infix\w*|module) ", line):
                    continue
                if head := re.match(rf"{pad}(?:(?:abbrev|unfoldable|pub) )+(?:record |(data ))?([^\s({{]+)|{pad}([^\s({{]+)(?: \{{.*?\}})* :", line):
                    key, is_data = (at, head[2] or head[3]), head[1]
                    self.lines[key] = []
                elif is_data and (case := re.match(rf"{pad}  (?:pub )?([^\s({{]+) :", line)):
                    self.scopes[at][case[1]] = key
                if key:
                    self.lines[key].append(line)

    def use(self, at, crate, path, words, alias):
        of = f"{crate}/{path}"
        self.files[at].append(of)
        self.scopes[at] |= {new or old: (of, old) for old, new in re.findall(r"([^\s,]+)(?: as ([^\s,]+))?", words or "")}
        self.scopes[at][f"{alias or path.split('.')[-1]}."] = of, ""

    def found(self, at, word):
        """The definition that a word of a file stands for, or nothing."""
        one, dot, rest = word.partition(".")
        key = (self.scopes[at][f"{one}."][0], rest.split(".")[0]) if dot and f"{one}." in self.scopes[at] else self.scopes[at].get(one, (at, one))
        # (a case of a definition stands for the whole)
        key = self.scopes.get(key[0], {}).get(key[1], key) if key not in self.lines else key
        return key if key in self.lines else None

    def closure(self, *keys):
        left, all = list(keys), set()
        while left:
            if (key := left.pop()) and key not in all:
                all.add(key)
                words = set(re.findall(r"[^\s(){}\[\],;]+", "\n".join(self.lines[key])))
                # (a `do` is read by this operator)
                left += [self.found(key[0], it) for it in words | ({"◌>>=◌"} if words & {"do", ">>="} else set())]
        return all

    def parts(self):
        """What the theorems and the clauses of their laws stand on: first what the five statements themselves say, then all else that has nothing to do with savestates, then the rest."""
        theorems, laws = ((ROOT / "crates/obman_theorems" / it).read_text() for it in ["specs/Theorems.antt", "src/law.rt"])
        seeds = [it for it in self.lines if it[0] == "obman_theorems/Theorems"]
        five = {*re.findall(r"^(?:abbrev )?pub (?:record )?(\w+)", theorems.split("\n-- 6. ")[0], re.M)}
        for of, words in re.findall(r"^ghost use Rattle\.([\w.]+)\.\{(.*)\};$", laws, re.M):
            seeds += [it for word in words.split(", ") if (it := (of.replace(".specs.", "/"), word)) in self.lines]
        saves = {it for it in self.lines if it[0] == "ob_manager/Savestates"}
        first = self.closure(*(it for it in seeds if it[1] in five))
        second = self.closure(*(it for it in seeds if not self.closure(it) & saves)) - first
        return [first, second, self.closure(*seeds) - first - second]

    def in_order(self, keys):
        """The files of these, each behind those that it uses, and lower crates first."""
        order = []

        def put(file):
            if file in self.files and file not in order:
                for it in self.files[file]:
                    put(it)
                order.append(file)

        crates = re.findall(r"^(\w+).*:", (ROOT / "crates.txt").read_text(), re.M)
        for file in sorted({at for at, _ in keys}, key=lambda it: (crates.index(it.split("/")[0]), it)):
            put(file)
        return [it for it in order if any(at == it for at, _ in keys)]
