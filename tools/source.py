"""Reads the sources of a tree for the other tools: files, declarations, imports, and the table of renames.

A tree is a folder or a git revision. Every declaration has a full name that does not depend on who cites it:

    params.specs.Limits.mostDegree         a definition of crates/params/specs/Limits.antt
    theorems.proofs.promise.Promise.demand-3   a declaration of crates/theorems/proofs/promise/Promise.antt
    store.src.Lent, store.src.words_size   a type or a function of crates/store/src/lib.rt
    beam_state.src.tournament.put          a function of crates/beam_state/src/tournament.rt
"""
import collections
import importlib.machinery
import importlib.util
import io
import os
import re
import signal
import subprocess
import tarfile

signal.signal(signal.SIGPIPE, signal.SIG_DFL)  # `tool | head` ends quietly

RENAMES = "docs/renames.txt"


class Unreadable(Exception):
    """A text that these tools do not know how to read: it is not passed over."""


def tool(name):
    """Another tool of this folder, as a module."""
    loader = importlib.machinery.SourceFileLoader(name, os.path.join(os.path.dirname(os.path.realpath(__file__)), name))
    module = importlib.util.module_from_spec(importlib.util.spec_from_loader(name, loader))
    loader.exec_module(module)
    return module


# ---- trees


def tree_of(where):
    """{path: text} of a folder or a git revision of this repository."""
    if os.path.isdir(os.path.join(where, "crates")):
        return folder(where)
    run = subprocess.run(["git", "archive", "--format=tar", where], capture_output=True)
    if run.returncode:
        raise Unreadable(f"'{where}' is neither a folder nor a git revision")
    with tarfile.open(fileobj=io.BytesIO(run.stdout)) as archive:
        files = {m.name: archive.extractfile(m).read() for m in archive.getmembers() if m.isfile() and wanted(m.name)}
    return {name: data.decode("utf-8") for name, data in files.items()}


def folder(where):
    paths = ["crates.txt", RENAMES]
    for base, folders, names in os.walk(os.path.join(where, "crates")):
        folders[:] = [name for name in folders if name != "out"]  # what rt makes
        paths += [os.path.relpath(os.path.join(base, name), where) for name in names]
    files = {}
    for path in paths:
        if wanted(path) and os.path.exists(os.path.join(where, path)):
            with open(os.path.join(where, path), encoding="utf-8") as f:
                files[path] = f.read()
    return files


def wanted(path):
    return path in ("crates.txt", RENAMES) or path.startswith("crates/") and path.endswith((".rt", ".antt", ".edit"))


# ---- words of a text

NAME = r"(?:«[^»]*»|[^\s(){}.;,@\"«»])+"
TOKEN = re.compile(r"\"(?:\\.|[^\"\\])*\"|(?<![^\s(){};,])\.%s|%s(?:\.%s)*|[(){};,@.]" % (NAME, NAME, NAME))
RUST_TOKEN = re.compile(r"«[^»]*»|\w+(?:::\w+)*|->|[^\s\w]")
NUMBER = re.compile(r"0x[0-9a-fA-F_]+|0o[0-7_]+|0b[01_]+|\d[\d_]*")


def without_comments(text, mark):
    """The text with comments blanked and its lines kept."""
    if mark == "--":
        text = re.sub(r"\{-.*?-\}", lambda m: re.sub(r"[^\n]", " ", m[0]), text, flags=re.S)
        return re.sub(r"(?m)(^|(?<=[\s(){};,]))--(?=[\s-]|$).*$", "", text)
    return re.sub(r"(?m)//.*$", "", text)


def tokens(text, rust=False):
    """The words of a text, numbers by value, without a last separator before a closing bracket."""
    found, separators = [], (",",) if rust else (",", ";")
    for token in (RUST_TOKEN if rust else TOKEN).findall(text):
        token = token.replace("«", "").replace("»", "")
        if NUMBER.fullmatch(token):
            token = str(int(token.replace("_", ""), 0)) if not re.fullmatch(r"0\d+", token) else token
        if token in (")", "}", "]") and found and found[-1] in separators:
            found.pop()
        found.append(token)
    return found


def top_level(words, end):
    """The index of the first word `end` outside all brackets, or None."""
    depth = 0
    for i, word in enumerate(words):
        if word == end and depth == 0:
            return i
        depth += (word in ("(", "{")) - (word in (")", "}"))
    return None


def outside(words, end):
    """The words before `end` that are in no brackets."""
    found, depth = [], 0
    for word in words:
        if word == end and depth == 0:
            break
        depth += (word in ("(", "{")) - (word in (")", "}"))
        if depth == 0 and word not in (")", "}"):
            found.append(word)
    return found


# ---- declarations


class Declaration:
    """One declaration: `head` is its statement (a signature, a contract), `body` the rest; both are lists of words."""

    def __init__(self, file, name, kind, line, public):
        self.file, self.name, self.kind, self.line, self.public = file, name, kind, line, public
        self.head, self.body, self.lines, self.owns, self.head_lines = [], [], [], [], []
        self.body_line, self.section, self.clauses = line, 0, []

    @property
    def full(self):
        return f"{self.file.module}.{self.name}"

    @property
    def words(self):
        return self.head + self.body

    @property
    def text(self):
        """Its own lines: the parameters of the section that it stands in are left out."""
        return "\n".join(self.lines[self.section:])

    def bound(self, words):
        """The names that these words of it bind: parameters, variables of patterns, of λ and of let."""
        found = set()
        for i, word in enumerate(words):
            if word == ":":
                j = i
                while j and words[j - 1] not in tuple("(){};,:=."):
                    j -= 1
                if j and words[j - 1] in ("(", "{", ","):
                    found.update(words[j:i])
            elif word == "λ":
                found.update(outside(words[i + 1:], "."))
            elif word == "let":
                found.add(words[i + 1])
        for clause in self.clauses if words is not self.head else ():
            found.update(clause[: top_level(clause, "=")])
        return found - set(parts(self.name)) - set("(){},;.")

    def number(self):
        """The number, if the declaration only names a number."""
        if self.kind == "definition" and self.body[:2] == [self.name, "="] and len(self.body) == 3 and NUMBER.fullmatch(self.body[2]):
            return self.body[2] if self.head[-2:] == [":", "ℕ"] else None
        return None


class File:
    """A source file: its module, its imports {local name: full name} and its declarations {name: Declaration}."""

    def __init__(self, path, text):
        self.path, self.text = path, text
        self.module = module_of(path)
        self.imports, self.aliases, self.declarations, self.passed_on = {}, {}, {}, {}
        self.own, self.inner = {}, set()
        (read_rust if path.endswith(".rt") else read_antt)(self)
        for declaration in self.declarations.values():
            for name in [declaration.name] + (declaration.owns if path.endswith(".antt") else []):
                self.own.update({part: f"{self.module}.{name}" for part in parts(name)})

    def rust_path(self, path):
        """The full name of a::b::c, where a is a crate, a module, an import or a type of this file."""
        first, rest = path.split("::", 1)
        steps = self.module.split(".")
        near = {"crate": ".".join(steps[:2]), "self": self.module, "super": ".".join(steps[:-1])}
        near.update({name: f"{self.module}.{name}" for name in self.inner})
        first = near.get(first) or self.aliases.get(first) or self.imports.get(first) or self.own.get(first) or first + ".src"
        return f"{first}.{rest}".replace("::", ".")

    def declare(self, declaration):
        if declaration.name in self.declarations:
            raise Unreadable(f"{self.path}:{declaration.line}: '{declaration.name}' is declared twice")
        self.declarations[declaration.name] = declaration

    def resolve(self, word):
        """The full name that a word stands for in this file, or None: a variable, a field, a keyword."""
        if word in self.imports:
            return self.imports[word]
        if word in self.own:
            return self.own[word]
        if "::" in word:
            return self.rust_path(word)
        if "." in word and not word.startswith("."):
            first, rest = word.split(".", 1)
            if first == "Rattle":
                return canonical(word)
            if first in self.aliases:
                return canonical(f"{self.aliases[first]}.{rest}")
            # a projection of a definition, as `usual.factor`
            return self.imports.get(first) or self.own.get(first)
        return None


def module_of(path):
    """crates/a/specs/B/C.antt is a.specs.B.C, crates/a/src/lib.rt is a.src, crates/a/src/m.rt is a.src.m"""
    inner = os.path.splitext(path)[0].split("/")[1:]
    if inner[1] == "src" and inner[-1] in ("lib", "main", "mod"):
        inner = inner[:-1]
    return ".".join(inner)


def canonical(path):
    """The full name of what `use` calls Rattle.a.specs.B.c or Rattle.a.specs.declared.T.c."""
    path = re.sub(r"^Rattle\.(?=\w)", "", path.replace("«", "").replace("»", ""))
    declared = re.match(r"(\w+)\.specs\.declared\.(.*)", path)
    if not declared:
        return path
    inner = [x for x in declared[2].split(".") if x != "TheVariants"]
    if len(inner) > 1 and inner[-1] == inner[-2]:
        inner.pop()
    return ".".join([declared[1], "src"] + inner)


def parts(name):
    """The words that a name is written by: an operator's parts too."""
    return [name] + ([x for x in name.split("◌") if x] if "◌" in name else [])


def indentation(lines):
    return min((len(line) - len(line.lstrip()) for _, line in lines if line.strip()), default=0)


def items(lines, base):
    """(number, lines) of each item whose first line is indented by `base`."""
    item = None
    for number, line in lines:
        bare = line.strip()
        if not bare:
            continue
        fresh = len(line) - len(line.lstrip()) <= base and bare[0] not in ")}]"
        if fresh and item:
            yield item
        if fresh or not item:
            item = (number, [])
        item[1].append((number, line.rstrip()))
    if item:
        yield item


# ---- antt


def read_antt(file):
    lines = list(enumerate(without_comments(file.text, "--").split("\n"), 1))
    read_items(file, lines, 0, [], [])


def read_items(file, lines, base, context, context_lines):
    """Reads the items of a file or of a `module _ (..) where`, whose parameters are the context."""
    current = None
    for number, item in items(lines, base):
        text = "\n".join(line for _, line in item)
        words = tokens(text)
        start = 0
        while words[start] in ("pub", "abbrev", "unfoldable"):
            start += 1
        first = words[start]
        if first == "use":
            read_use(file, words[start + 1:], "pub" in words[:start])
        elif first == "mod":
            pass
        elif first == "module":
            if words[start + 1] != "_":
                raise Unreadable(f"{file.path}:{number}: a module with a name")
            opening = 1 + next(i for i, (_, line) in enumerate(item) if line.endswith("where"))
            head, nested = [line for _, line in item[:opening]], item[opening:]
            read_items(file, nested, indentation(nested), context + tokens("\n".join(head))[2:-1], context_lines + head)
        elif first in ("record", "data"):
            current = Declaration(file, words[start + 1], first, number, "pub" in words[:start])
            where = words.index("where") if "where" in words else len(words)
            current.head, current.body = context + words[:where], words[where:]
            current.lines = context_lines + [line for _, line in item]
            current.head_lines = current.lines
            if first == "data":
                current.owns = constructors(item[1:])
            current.section = len(context_lines)
            file.declare(current)
        elif first == "unfolding":
            if current is None:
                raise Unreadable(f"{file.path}:{number}: 'unfolding' belongs to no declaration")
            current.body += words
            current.lines += [line for _, line in item]
        elif signature(words[start:]):
            current = Declaration(file, first, "definition", number, "pub" in words[:start])
            current.head = context + words
            current.lines = context_lines + [line for _, line in item]
            current.head_lines, current.section = list(current.lines), len(context_lines)
            file.declare(current)
        else:
            owner = file.declarations.get(first, current)
            if owner is None:
                raise Unreadable(f"{file.path}:{number}: '{first}' belongs to no declaration")
            owner.body += words
            owner.clauses.append(words)
            owner.lines += [line for _, line in item]


def signature(words):
    """Whether these words declare a name: a colon comes before any equals sign."""
    colon, equals = top_level(words, ":"), top_level(words, "=")
    return colon is not None and (equals is None or colon < equals)


def constructors(lines):
    """The names of a data type's constructors."""
    found = []
    for _, item in items(lines, indentation(lines)):
        words = tokens("\n".join(line for _, line in item))
        found += [word for word in words[: top_level(words, ":")] if word != "pub"]
    return found


def read_use(file, words, public=False):
    """use PATH.{a, b as c}, use PATH as x, use PATH"""
    path, rest = words[0], words[1:]
    if rest[:1] == ["as"]:
        file.aliases[rest[1]] = path
        return
    if not rest:
        file.aliases[path.split(".")[-1]] = path
        return
    if rest[:2] != [".", "{"]:
        raise Unreadable(f"{file.path}: use {' '.join(words)}")
    inner, i = rest[2:-1], 0
    while i < len(inner):
        name, local = inner[i], inner[i]
        if inner[i + 1:i + 2] == ["as"]:
            local, i = inner[i + 2], i + 2
        for part in parts(local):
            file.imports[part] = canonical(f"{path}.{name}")
        if public:
            file.passed_on[local] = canonical(f"{path}.{name}")
        i += 2


# ---- Rattle

OPENING = re.compile(r"(?m)^[ \t]*((?:#\[[^\]]*\]\s*)*)((?:pub\s+)?(?:extern\s+\"C\"\s+)?(?:const\s+)?(fn|struct|enum|const|type|mod)\s+(\w+))")


def block_end(text, at):
    """The index after the bracket that closes the one at `at`."""
    pairs = {"(": ")", "{": "}", "[": "]"}
    depth, opened, closed = 0, text[at], pairs[text[at]]
    for i in range(at, len(text)):
        depth += (text[i] == opened) - (text[i] == closed)
        if depth == 0:
            return i + 1
    raise Unreadable("a bracket is not closed")


def read_rust(file):
    text = without_comments(file.text, "//")
    file.inner = set(re.findall(r"(?m)^(?:pub\s+)?mod\s+(\w+)", text))
    for use in re.finditer(r"(?m)^\s*(?:pub\s+)?(ghost\s+)?use\s+([^;]*);", text):
        if use[1]:
            read_use(file, tokens(use[2]))
        else:
            read_rust_use(file, use[2])
    owners = [(m.start(), block_end(text, m.end() - 1), owner_of(m[1])) for m in re.finditer(r"(?m)^(?:pub\s+)?((?:impl|trait)\b[^{;]*)\{", text)]
    position = 0
    while True:
        found = OPENING.search(text, position)
        if not found:
            return
        kind, name, start = found[3], found[4], found.start(1)
        owner = next((x for a, b, x in owners if a <= found.start() < b), None)
        line = text.count("\n", 0, start) + 1
        declaration = Declaration(file, f"{owner}.{name}" if owner else name, kind, line, found[2].startswith("pub"))
        if kind == "fn":
            contract, head_end, end = function_parts(text, found.end())
            declaration.head = tokens(text[start:contract], rust=True) + tokens(text[contract:head_end])
            declaration.body = tokens(text[head_end:end], rust=True)
            declaration.head_lines = clean(text[start:head_end])
            declaration.body_line = text.count("\n", 0, head_end) + 1
        else:
            end = statement_end(text, found.end())
            declaration.head = tokens(text[start:end], rust=True)
            declaration.head_lines = clean(text[start:end])
            if kind == "enum":
                inner = text[text.index("{", found.end()) + 1:end - 1]
                declaration.owns = re.findall(r"(\w+)\s*(?:\([^)]*\)|\{[^}]*\})?\s*(?:,|$)", inner.strip())
        declaration.lines = clean(text[start:end])
        if kind != "mod":
            file.declare(declaration)
        position = end


def clean(text):
    return [line.rstrip() for line in text.split("\n") if line.strip()]


CLAUSE = re.compile(r"\s*(requires|ensures|decreases|measure)\b[^{]*")
RESULT = re.compile(r"\s*->\s*(?:\[(?:[^\[\]]|\[[^\[\]]*\])*\]|[^{;\[])*?(?=\s*(?:[{;]|\b(?:requires|ensures|decreases|measure)\b))")


def past_generics(text, at):
    """The index after the <..> that stands at `at`, if one does."""
    depth = 0
    for i in range(at, len(text)):
        depth += (text[i] == "<") - (text[i] == ">" and text[i - 1] != "-")
        if depth == 0:
            return i + 1 if text[i] == ">" else i


def owner_of(head):
    """What the functions of an impl or a trait are called by: the type or the trait; of a trait's impl the type and the trait, as proofs name it."""
    rest = re.sub(r"^(impl|trait)\s*", "", head)
    rest = re.sub(r"'\w+|\bwhere\b.*", "", rest[past_generics(rest, 0):], flags=re.S)
    of_trait, _, of_type = rest.rpartition(" for ")
    first, *others = [re.findall(r"\w+(?:::\w+)*", text) for text in (of_type, of_trait)]
    words = [path.split("::")[-1] for path in first[:1] + others[0]]
    return "".join(word[0].upper() + word[1:] for word in words)


def function_parts(text, at):
    """Where the contract of a function begins, whose name ends at `at`; where the body begins; and where that ends."""
    at = block_end(text, text.index("(", past_generics(text, at)))
    result = RESULT.match(text, at)
    at = contract = result.end() if result else at
    while clause := CLAUSE.match(text, at):
        at = block_end(text, clause.end())
    body = re.compile(r"\s*([{;])").match(text, at)
    if not body:
        raise Unreadable(f"a function's contract: {text[at:at + 80]!r}")
    start = body.start(1)
    return contract, start, block_end(text, start) if body[1] == "{" else start + 1


def statement_end(text, at):
    """The index after a struct, an enum, a constant or a `mod` item."""
    for i in range(at, len(text)):
        if text[i] == ";":
            return i + 1
        if text[i] == "{":
            return block_end(text, i)
        if text[i] == "(":
            return text.index(";", block_end(text, i)) + 1
        if text[i] == "=":
            return constant_end(text, i)
    raise Unreadable("a declaration has no end")


def constant_end(text, at):
    depth = 0
    for i in range(at, len(text)):
        depth += (text[i] in "([{") - (text[i] in ")]}")
        if text[i] == ";" and depth == 0:
            return i + 1
    raise Unreadable("a constant has no end")


def read_rust_use(file, path):
    """use a::b::Type is an import; use a::b, of a module, makes b::x a path and is no word alone."""
    words = path.replace(" ", "").replace("\n", "")
    group = re.fullmatch(r"(.*)::\{(.*)\}", words)
    for one in [f"{group[1]}::{x}" for x in group[2].split(",") if x] if group else [words]:
        name = one.split("::")[-1]
        (file.aliases if name.islower() else file.imports)[name] = file.rust_path(one)


# ---- a whole tree


class Sources:
    """All files of a tree, and its declarations by full name."""

    def __init__(self, files):
        self.texts = files
        self.files = {path: File(path, text) for path, text in sorted(files.items()) if path.endswith((".rt", ".antt"))}
        self.named = {}
        for file in self.files.values():
            for declaration in file.declarations.values():
                self.named[declaration.full] = declaration
                for owned in declaration.owns:
                    inside = f"{declaration.full}.{owned}" if file.path.endswith(".rt") else f"{file.module}.{owned}"
                    self.named.setdefault(inside, declaration)
        self.modules = {file.module: file for file in self.files.values()}

    def declaration(self, full):
        """The declaration of a full name, followed through `pub use`; None if it is the kit's."""
        for _ in range(9):
            if full in self.named:
                return self.named[full]
            module, _, name = full.rpartition(".")
            file = self.modules.get(module)
            if file is None or name not in file.passed_on:
                return None
            full = file.passed_on[name]

    def crate_names(self):
        return sorted({path.split("/")[1] for path in self.files})


def closure(sources, roots, words_of=lambda d: d.words):
    """All declarations that the roots rest on, in the order in which they are met, the roots first."""
    met = collections.OrderedDict((d.full, d) for d in roots)
    waiting = list(roots)
    while waiting:
        declaration = waiting.pop(0)
        for word in words_of(declaration):
            full = declaration.file.resolve(word)
            other = full and sources.declaration(full)
            if other and other.full not in met:
                met[other.full] = other
                waiting.append(other)
    return met


# ---- the table of renames


class Renames:
    """docs/renames.txt: what was renamed or moved, oldest first.

        Rattle.a Rattle.b::a                          crate a is the module a of crate b; its specs lie beside b's
        Rattle.a.specs.X Rattle.b.specs.Y             a file moved; so for one declaration, Rattle.a.specs.X.name
        old new                                       a name, wherever it stands: a field, a variable, a function
        proved-by Rattle.a.specs.X.name FILE          the text changed by more than names; FILE proves it equivalent
    """

    def __init__(self, text=""):
        self.paths, self.names, self.proved = [], {}, {}
        for number, line in enumerate(text.split("\n"), 1):
            words = line.split("#")[0].split()
            if not words:
                continue
            if words[0] == "proved-by" and len(words) == 3:
                self.proved[canonical(words[1])] = words[2]
            elif len(words) != 2:
                raise Unreadable(f"{RENAMES}:{number}: '{line}'")
            elif words[0].startswith("Rattle."):
                self.add_path(*words)
            else:
                self.names.setdefault(words[0].strip("«»"), set()).add(words[1].strip("«»"))

    @classmethod
    def between(cls, before, after):
        """The table of the tree AFTER without the lines that BEFORE has already: what was renamed since."""
        known = collections.Counter(before.get(RENAMES, "").split("\n"))
        since = []
        for line in after.get(RENAMES, "").split("\n"):
            if known[line]:
                known[line] -= 1
            else:
                since.append(line)
        return cls("\n".join(since))

    def add_path(self, old, new):
        old, (new, _, module) = canonical(old), new.partition("::")
        new = canonical(new)
        if module:
            module = module.replace("::", ".")
            self.paths += [(f"{old}.src", f"{new}.src.{module}"), (f"{old}.proofs", f"{new}.proofs.{module}"), (f"{old}.specs", f"{new}.specs")]
        else:
            self.paths.append((old, new))

    def path(self, full):
        """The full name today of what had this full name."""
        for old, new in self.paths:
            if full == old or full.startswith(old + "."):
                full = new + full[len(old):]
        return full

    def find(self, sources, full):
        """The declaration of the later tree that a full name of the earlier one has become, or None."""
        module, _, name = self.path(full).rpartition(".")
        for candidate in [name] + sorted(self.names.get(name, ())):
            declaration = sources.declaration(f"{module}.{candidate}")
            if declaration:
                return declaration
        return None


def normal(sources, declaration, words, renames=None):
    """The words with every cited name in full, a name for a number by its number, old paths by today's."""
    result = []
    for word in words:
        full = declaration.file.resolve(word)
        if full:
            other = sources.declaration(full)
            number = other.number() if other and other is not declaration else None
            word = number or "=" + (renames.path(full) if renames else full)
        result.append(word)
    return result


def difference(before, after, names):
    """None if two lists of words are equal but for renamed names, one new name for one old name; else the index where they part."""
    there, back = {}, {}
    for i, (x, y) in enumerate(zip(before, after)):
        if x != y:
            cut = max(x.rfind("."), x.find("=")) + 1
            if y[:cut] != x[:cut] or y[cut:] not in names.get(x[cut:], ()):
                return i
        if there.setdefault(x, y) != y or back.setdefault(y, x) != x:
            return i
    return None if len(before) == len(after) else min(len(before), len(after))
