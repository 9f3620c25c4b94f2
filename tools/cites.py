"""Which definitions a crate cites of the crates below it: modules of their `specs/`, their declared types and traits,
and what these cite in turn."""
import functools
import glob
import hashlib
import os
import re

ROOT = os.path.dirname(os.path.dirname(os.path.abspath(__file__)))
# A module of a crate's definitions, as sources name it.
NAMED = re.compile(r"Rattle\.(lra_\w+)\.specs((?:\.\w+)*)")
# What begins the text of a declared type, trait or model, and its name.
# The text ends with the first line that closes it.
DECLARED = re.compile(r"(?:pub(?:\([\w ]+\))? )?(?:struct|enum|union|trait|type) (\w+)|impl(?:<.*>)? Model for (\w+)")
# What brings names into a file: whether they are definitions, the module, the names,
# and what the module or the one name is called.
BRINGS = re.compile(
    r"^[ \t]*(?:pub(?:\([\w ]+\))? )?(ghost )?use (Rattle\.)?([\w«»]+(?:(?:\.|::)[\w«»]+)*)"
    r"(?:(?:\.|::)\{([^}]*)\})?(?: as ([\w«»]+))?;?[ \t]*$",
    re.M,
)
# Lines that are comments, and that name a file's modules.
ASIDE = re.compile(r"^[ \t]*(?:--|//).*$|^[ \t]*(?:pub(?:\([\w ]+\))? )?mod \w+;?[ \t]*$", re.M)
# What stands before the name that a paragraph of definitions defines.
BEFORE = "(?:(?:pub|abbrev|unfoldable|opaque|irreducible|record|data|syntax) )*"
# Types that are brought in from another crate.
BROUGHT = re.compile(r"^(?:pub )?use (lra_\w+)::([^;]*);", re.M)


def read_sources(root=ROOT):
    """The sources of all crates, by their path from the top on."""
    found = {}
    for part in ("src", "specs", "proofs"):
        for path in glob.glob(f"{root}/crates/*/{part}/**/*", recursive=True):
            if path.endswith((".rt", ".antt")):
                with open(path, encoding="utf-8") as it:
                    found[os.path.relpath(path, root)] = it.read()
    return found


def declared_in(text):
    """The name and the text of each type, trait and model that a source declares."""
    name, lines = "", []
    for line in text.split("\n"):
        begun = not name and DECLARED.match(line)
        if begun:
            name, lines = begun[1] or begun[2], []
        if name:
            lines.append(line)
            if line.startswith("}") or line.endswith("{}") or line.endswith(";") and len(lines) == 1:
                yield name, "\n".join(lines)
                name = ""


def defined_in(paragraph):
    """The name that a paragraph of definitions defines, if it defines one."""
    found = re.match(BEFORE + r"([\w«»']+)(?![\w-])", paragraph)
    return found[1] if found and f"{found[1]}|" not in BEFORE else None


def sum_of(name, paragraphs):
    """A sum of the paragraphs that define a name, or, where none does, of all."""
    found = [it for it in paragraphs if name and defined_in(it) == name]
    return hashlib.sha256(repr(sorted(found or paragraphs)).encode()).hexdigest()


def plain(paragraph):
    """A paragraph without what its layout alone decides: the breaks of its lines, and the separators that stand before
    a closing bracket, or behind an opening one, where what they enclose takes several lines."""
    words = re.sub(r"\s+", " ", paragraph).strip()
    return re.sub(r"([(\[{])(?: \|)? ", r"\1", re.sub(r"[,;]? ([)\]}])", r"\1", words))


class Definitions:
    """What is defined in the sources of all crates."""

    def __init__(self, sources):
        self.sources = sources
        self.by_crate = {}
        for path in sorted(sources):
            self.by_crate.setdefault(path.split("/")[1], []).append(path)

    def files(self, crate, *parts):
        """A crate's files of these parts, each with its text."""
        return [(it, self.sources[it]) for it in self.by_crate.get(crate, ()) if it.split("/")[2] in parts]

    @functools.cache
    def declarations(self, crate):
        """Each type and trait that a crate declares, by name: the files that have it, each with its text of it."""
        found = {}
        for path, text in self.files(crate, "src"):
            for name, declaration in declared_in(text):
                found.setdefault(name, []).append((path, declaration))
        return found

    def module(self, crate, words):
        """The file of a module of definitions, or, where none has its name, all of the crate's."""
        for count in range(len(words), 0, -1):
            path = f"crates/{crate}/specs/{'/'.join(words[:count])}.antt"
            if path in self.sources:
                return [(path, self.sources[path])]
        return self.files(crate, "specs")

    def declared(self, crate, words):
        """The type or trait that a module is of, or, where none has its name, all that the crate declares."""
        every = self.declarations(crate)
        names = [it for it in words if it in every][:1] or every
        return [it for name in names for it in every[name]]

    def named(self, text):
        """The definitions that a text names: a file for each, with its text of it."""
        for crate, path in set(NAMED.findall(text)):
            words = path.strip(".").split(".")
            if words[0] == "declared":
                yield from self.declared(crate, words[1:])
            elif words[0] == "contracts":
                yield from (
                    it
                    for it in self.files(crate, "src")
                    if it[0].split("/")[3].removesuffix(".rt") in (words[1], "lib")
                )
            else:
                yield from self.module(crate, words)

    def types_named(self, path, text):
        """The types that a declaration names: those of its own crate, and those that its file brings in."""
        words = set(re.findall(r"\b[A-Z]\w+", text))
        crates = {path.split("/")[1]: words}
        for crate, brought in BROUGHT.findall(self.sources[path]):
            crates.setdefault(crate, set()).update(words & set(re.findall(r"\w+", brought)))
        for crate, names in crates.items():
            every = self.declarations(crate)
            yield from (it for name in names & every.keys() for it in every[name])

    @functools.cache
    def paragraphs(self, text):
        """The paragraphs of a text, without comments and without what brings names into it."""
        parts = re.split(r"\n[ \t]*\n", ASIDE.sub("", BRINGS.sub("", text)))
        return [plain(it).replace("pub(crate) ", "pub ") for it in parts if it.strip()]

    @functools.cache
    def token(self, path, name):
        """A sum of what a name of a module is defined as, wherever that stands: of the paragraphs that define it, or,
        where none does, of all that the module has."""
        crate, kind, *words = path.split(".")[1:]
        if kind != "specs":
            return f"{kind}.{name}"
        rest = words[-1:] if words[0] in ("declared", "contracts") else []
        return ".".join((sum_of(name, [it for _, text in self.named(path) for it in self.paragraphs(text)]), *rest))

    @functools.cache
    def brought(self, text):
        """What each name stands for that is brought into a text: the module of a name for all of a module,
        or else its token."""
        modules, names = {}, {}
        for _, definitions, path, several, alias in BRINGS.findall(text):
            path, is_ours = f"{definitions}{path}", definitions and path.startswith("lra_")
            if not several and definitions:
                if is_ours:
                    modules[alias or path.split(".")[-1]] = path
                continue
            module, _, last = path.rpartition("::") if not several else (path, "", "")
            for it in several.split(",") if several else [f"{last} as {alias}" if alias else last]:
                name, _, called = " ".join(it.split()).partition(" as ")
                if name:
                    names[called or name] = (
                        self.token(path, name)
                        if is_ours
                        else name if module.startswith("lra_") else f"{module}.{name}"
                    )
        return modules, names

    @functools.cache
    def told(self, path, text):
        """The paragraphs of a file, each with what the names in it stand for: so a definition that only moves,
        and its module, change no sum."""
        modules, names = self.brought(text)
        every = self.paragraphs(text)
        if path.endswith(".antt"):
            names = {**{it: sum_of(it, every) for it in filter(None, map(defined_in, every))}, **names}
        found = []
        for it in every:
            words = {*re.findall(r"(?<![\w«».])[\w«»]+", it), *re.findall(r"[^\s(){}.,;]+", it)}
            within = {(of, name) for of, name in re.findall(r"([\w«»]+)(?:\.|::)([\w«»]+)", it) if of in modules}
            found.append(
                (
                    it,
                    sorted((it, names[it]) for it in words & names.keys()),
                    sorted((of, name, self.token(modules[of], name)) for of, name in within),
                )
            )
        return found

    def cited(self, crate):
        """What a crate cites of those below it: a file from the top on for each definition, with its text, sorted."""
        found, left = set(), [it for _, text in self.files(crate, "src", "specs", "proofs") for it in self.named(text)]
        while left:
            piece = left.pop()
            if piece in found:
                continue
            found.add(piece)
            path, text = piece
            left.extend(self.named(text))
            if path.endswith(".rt"):
                left.extend(self.types_named(path, text))
        return sorted(it for it in found if it[0].split("/")[1] != crate)

    def sum(self, crate, files=None):
        """A sum of a crate's files, those that are given or else all, and of what it cites of the crates below it."""
        files = self.files(crate, "src", "specs", "proofs") if files is None else files
        own = [(path, sorted(map(repr, self.told(path, text)))) for path, text in files]
        below = sorted({repr(it) for path, text in self.cited(crate) for it in self.told(path, text)})
        return hashlib.sha256(repr((own, below)).encode()).digest()


def let_through():
    """Changes below a crate of which what it cites tells wrongly, tried on sources made up for it;
    there are to be none."""
    low = "crates/lra_low"
    sources = {
        f"{low}/src/lib.rt": (
            "pub enum Kind {\n    One(Inner),\n}\n\n"
            "pub struct Inner {\n    pub it: u64,\n}\n\n"
            "pub fn code() {}\n"
        ),
        f"{low}/specs/Words.antt": "use Rattle.lra_low.specs.Deep.{deep}\n\nword : ℕ\n",
        f"{low}/specs/Deep.antt": "deep : ℕ\n",
        f"{low}/specs/Other.antt": "other : ℕ\n",
        "crates/lra_up/src/lib.rt": (
            "ghost use Rattle.lra_low.specs.Words as words;\n"
            "ghost use Rattle.lra_low.specs.declared.Kind.{Kind};\n"
        ),
    }
    changes = [
        ("a definition that is cited", True, f"{low}/specs/Words.antt", "word : ℕ", "word : ℤ"),
        ("a definition that a cited one cites", True, f"{low}/specs/Deep.antt", "ℕ", "ℤ"),
        ("a type that is cited", True, f"{low}/src/lib.rt", "One(Inner)", "One(Inner, u8)"),
        ("a type that a cited one has", True, f"{low}/src/lib.rt", "u64", "u32"),
        ("a definition that isn't cited", False, f"{low}/specs/Other.antt", "ℕ", "ℤ"),
        ("a body", False, f"{low}/src/lib.rt", "code() {}", "code() { }"),
    ]
    before = Definitions(sources).sum("lra_up")
    for what, matters, path, old, new in changes:
        after = Definitions({**sources, path: sources[path].replace(old, new)}).sum("lra_up")
        if (after != before) != matters:
            yield f"{what} has changed, which {'nothing tells' if matters else 'no sum should have'}"
    moved = {
        path.replace("lra_low", "lra_deep").replace("Deep.antt", "Deepest.antt"): text
        for path, text in sources.items()
    }
    moved = {
        path: text.replace("lra_low", "lra_deep").replace("specs.Deep.", "specs.Deepest.")
        for path, text in moved.items()
    }
    moved["crates/lra_deep/specs/Words.antt"] = f"-- Words.\n{moved['crates/lra_deep/specs/Words.antt']}"
    if Definitions(moved).sum("lra_up") != before:
        yield "definitions have moved, which no sum should have"
    up = "use Rattle.lra_low.specs.{}.{{it}}\n\nmine : ℕ\nmine = it\n"
    twins = {f"{low}/specs/A.antt": "it : ℕ\nit = 1\n", f"{low}/specs/B.antt": "it : ℕ\nit = 2\n"}
    one, other = (
        {**twins, "crates/lra_up/specs/M.antt": up.format(a), "crates/lra_up/specs/N.antt": up.format(b)}
        for a, b in ("AB", "BA")
    )
    if Definitions(one).sum("lra_up") == Definitions(other).sum("lra_up"):
        yield "a name stands for another definition, which nothing tells"
