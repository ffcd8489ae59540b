"""What names mean in a repository of Rattle crates, as it is or as it was at a revision: paths of the
code by its modules and `use` lines, and names of clauses and definitions by their imports.

What a name means is its id, a text: `crate::module::Item::part` for what the code declares,
`crate.File.name` for a definition, and the written path for what is outside of the repository."""
import functools
import io
import os
import re
import subprocess
import tarfile

from repository import TOP, files, text_of
from rt_items import items_of, uncommented

KIT = "/opt/rattle/rattle"
# A word of the logic; a field keeps the point before it.
LOGIC_WORD = re.compile(
    r"""«[^»]*»|"(?:[^"\\\n]|\\[^\n])*"|(?<=\S)\.(?:«[^»]*»|[^\s(){}.;,@"«»]+)|[(){};,@.]|[^\s(){}.;,@"«»]+"""
)
IMPORT = re.compile(r"^[ \t]*(?:unfoldable )?(?:pub )?use ([^\s{]+?)(?:\.\{([^}]*)\}|(?: as (\S+))?)[ \t]*$", re.M)
# Marks before what a line of definitions declares.
LOGIC_MARKS = {"pattern", "unfoldable", "abbrev", "pub", "axiom"}
# Variants that no text has to import.
PLAIN = {
    "Some": "core::option::Option::Some",
    "None": "core::option::Option::None",
    "Ok": "core::result::Result::Ok",
    "Err": "core::result::Result::Err",
}


def crate_names(listing):
    """The crates that the text of a crates.txt lists."""
    lines = (it.partition("#")[0].strip() for it in listing.split("\n"))
    return [it.partition(":")[0].split()[0] for it in lines if it]


def disk_sources(top=TOP):
    """The code and definitions of the repository as it is, by their paths."""
    found = {"crates.txt": text_of(f"{top}/crates.txt")}
    for name in crate_names(found["crates.txt"]):
        for path in files(f"{top}/crates/{name}", ("src", "specs")):
            found[os.path.relpath(path, top)] = text_of(path)
    return found


def git_sources(revision, top=TOP):
    """The code and definitions of the repository as it was at a revision, by their paths."""
    made = ["git", "-C", top, "archive", "--format=tar", revision, "crates.txt", "crates"]
    archive, found = subprocess.run(made, check=True, capture_output=True).stdout, {}
    with tarfile.open(fileobj=io.BytesIO(archive)) as tar:
        for it in tar:
            if it.isfile() and re.fullmatch(r"crates\.txt|crates/\w+/(src/.*\.rt|specs/.*\.antt)", it.name):
                found[it.name] = tar.extractfile(it).read().decode()
    return found


def logic_words(text):
    """The words of a text of the logic that has no comments."""
    return LOGIC_WORD.findall(text)


class Import:
    """What a name of a clause or a file of definitions means: its path, and whether it is a whole module."""

    def __init__(self, path, is_module):
        self.path, self.is_module = tuple(path), is_module


def imports(text):
    """What the `use` lines of a text of the logic bring: each name with its import."""
    for path, names, known in IMPORT.findall(text):
        segments = path.split(".")
        if not names:
            yield known or segments[-1], Import(segments, is_module=True)
        for name in filter(None, map(str.strip, names.split(","))):
            name, _, as_name = name.partition(" as ")
            yield as_name.strip() or name.strip(), Import([*segments, name.strip()], is_module=False)


def ghost_import(text):
    """What a `ghost use` brings."""
    return imports("use " + re.sub(r"\s+", " ", text))


def use_paths(words):
    """The paths of a `use` line of code, each with the name that it brings."""
    at = 0

    def tree(before):
        nonlocal at
        path, known = list(before), None
        while at < len(words) and words[at] not in (",", "}"):
            word = words[at]
            at += 1
            if word == "{":
                while words[at] != "}":
                    yield from tree(path)
                    at += words[at] == ","
                at += 1
                return
            if word == "as":
                known = words[at]
                at += 1
            elif word not in ("::", "self") or not path:
                path += [word] if word != "::" else []
        yield known or path[-1], path

    return list(tree([]))


class Module:
    """A module of the code: its items, the modules below it and what its `use` lines bring."""

    def __init__(self, crate, path, parent, seen, items):
        self.crate, self.path, self.parent, self.seen, self.all = crate, path, parent, seen, items
        self.items, self.below, self.uses = {}, {}, {}
        # Names of clauses, each with its path.
        self.ghosts = [it for item in items if item.kind == "ghost use" for it in ghost_import(item.text)]
        self.impls = [it for it in items if it.kind == "impl"]
        for item in items:
            if item.kind == "use":
                for name, target in use_paths(item.head):
                    self.uses[name] = (target, item.seen)
            elif item.name and item.kind not in ("mod", "ghost"):
                self.items[item.name] = item

    def id(self):
        return "::".join([self.crate, *self.path])


class Named:
    """What a path means: its id, with the item that it is or belongs to, if it is one of the repository."""

    def __init__(self, id, home=None, item=None, rest=()):
        self.home, self.item, self.rest = home, item, list(rest)
        self.id = "::".join([id, *rest])


class Code:
    """The modules of the crates of the repository."""

    def __init__(self, sources):
        self.sources, self.roots = sources, {}
        for name in crate_names(sources["crates.txt"]):
            roots = (f"crates/{name}/src/{it}.rt" for it in ("lib", "main"))
            if root := next(filter(sources.__contains__, roots), None):
                self.roots[name] = self.module(name, (), None, "pub", root)
        self.libraries = [it for it in self.roots if f"crates/{it}/src/lib.rt" in sources]

    def module(self, crate, path, parent, seen, file):
        items = [it for it in items_of(self.sources[file], file) if not it.is_test()]
        made = Module(crate, path, parent, seen, items)
        self.add_below(made, items, os.path.dirname(file) if not path else file[:-3])
        return made

    def add_below(self, made, items, folder):
        for item in items:
            if item.kind != "mod" or item.is_test():
                continue
            path = (*made.path, item.name)
            if item.text == "inline":
                child = Module(made.crate, path, made, item.seen, item.members)
                self.add_below(child, item.members, f"{folder}/{item.name}")
            else:
                ends = (f"{folder}/{item.name}.rt", f"{folder}/{item.name}/mod.rt")
                file = next(filter(self.sources.__contains__, ends))
                child = self.module(made.crate, path, made, item.seen, file)
            made.below[item.name] = child

    def modules(self, module):
        yield module
        for it in module.below.values():
            yield from self.modules(it)

    def follow(self, module, path, in_use=None):
        """What a path means in a module: a module or a Named. In a `use` line, the name that the line
        brings is none that its path can begin with."""
        first, rest = path[0], path[1:]
        if first == "crate":
            return self.descend(self.roots[module.crate], rest)
        if first == "self":
            return self.descend(module, rest)
        if first == "super":
            return self.descend(module.parent, rest)
        if first in module.below or first in module.items and in_use is None:
            return self.descend(module, path)
        if first in module.uses and first != in_use:
            found = self.descend(module, path)
            # A function has nothing below it: a crate of its name is meant.
            if not (rest and first in self.roots and isinstance(found, Named) and is_function(found)):
                return found
        if first in self.roots:
            return self.descend(self.roots[first], rest)
        return Named("::".join(path))

    def descend(self, module, path):
        """What a path below a module means."""
        if not path:
            return module
        first, rest = path[0], path[1:]
        if first == "super":
            return self.descend(module.parent, rest)
        if first in module.below:
            return self.descend(module.below[first], rest)
        if first in module.items:
            return Named(f"{module.id()}::{first}", module, module.items[first], rest)
        if first in module.uses:
            target, _ = module.uses[first]
            return self.follow(module, [*target, *rest], in_use=first)
        return Named("::".join([module.id(), *path]))

    def handed_out(self, crate):
        """What a crate hands out: each path of it with what it means."""
        found, seen = {}, set()

        def walk(module, prefix):
            if (module, prefix) in seen:
                return
            seen.add((module, prefix))
            for name, item in module.items.items():
                if item.seen == "pub":
                    found[(*prefix, name)] = Named(f"{module.id()}::{name}", module, item)
            for name, child in module.below.items():
                if child.seen == "pub":
                    walk(child, (*prefix, name))
            for name, (target, how) in module.uses.items():
                if how == "pub":
                    means = self.follow(module, target, in_use=name)
                    if isinstance(means, Module) and means.crate == crate:
                        walk(means, (*prefix, name))
                    else:
                        found[(*prefix, name)] = means

        root = self.roots[crate]
        walk(root, (crate,))
        for module in self.modules(root):
            for name, item in module.items.items():
                if ["macro_export"] in item.attributes:
                    found[crate, name] = Named(f"{module.id()}::{name}", module, item)
        return found


def is_function(named):
    return named.item is not None and named.item.kind in ("fn", "const", "static")


class Definition:
    """What a file of definitions declares by one name: the words of the heads of the blocks around it, of its
    first line, and of each clause, constructor or field."""

    def __init__(self, name, lines):
        self.name, self.lines = name, lines


class File:
    """A file of definitions: its imports, what it declares, and of which of these a constructor or field is part."""

    def __init__(self, text):
        text = uncommented(text, is_logic=True)
        self.uses = dict(imports(text))
        self.globs = [it.path[:-1] for name, it in self.uses.items() if name == "*"]
        self.declared, self.parts = {}, {}
        lines = [it for it in IMPORT.sub("", text).split("\n") if it.strip()]
        self.read(lines, [])

    def read(self, lines, around):
        """Reads the lines of a block."""
        now = None
        for chunk in chunks(lines):
            now = self.chunk(chunk, around, now)

    def chunk(self, lines, around, now):
        """Takes a line with those further in below it, and returns what is declared from it on."""
        words = logic_words("\n".join(lines))
        bare = [it for it in words if it not in LOGIC_MARKS]
        if bare[0] in ("module", "mutual") and len(lines) > 1:
            self.read(lines[1:], [*around, logic_words(lines[0])])
            return None
        if bare[0] in ("mod", "use", "open", "infix", "infixl", "infixr"):
            return None
        if bare[0] in ("data", "record"):
            parts = [logic_words("\n".join(it)) for it in chunks(lines[1:])]
            self.declared[bare[1]] = Definition(bare[1], [*around, logic_words(lines[0]), *parts])
            for it in parts:
                for part in signed([word for word in it if word not in LOGIC_MARKS]):
                    self.parts.setdefault(part, bare[1])
            return self.declared[bare[1]]
        if names := signed(bare):
            made = Definition(names[0], [*around, words])
            self.declared.update((it, made) for it in names)
            return made
        if now:
            now.lines.append(words)
        return now


def chunks(lines):
    """The lines of a block, each with those further in below it."""
    width = lambda line: len(line) - len(line.lstrip())
    indent, made = min(map(width, lines), default=0), []
    for line in lines:
        if width(line) <= indent or not made:
            made.append([])
        made[-1].append(line)
    return made


def signed(words):
    """The names to which a line gives a type."""
    if words[1:2] == ["{"] and "}" in words:
        end = words.index("}")
        words = words[:1] + words[end + 1 :]
    end = words.index(":") if ":" in words else 0
    is_plain = all(re.fullmatch(r"[^(){};,@.=|\[\]\"]+|\[\]", it) for it in words[:end])
    return words[:end] if is_plain else []


class Logic:
    """The definitions of the crates of the repository, and of the kit where it is there."""

    def __init__(self, sources, code):
        self.sources, self.code, self.read = sources, code, {}

    def file(self, crate, path):
        """A file of definitions by its path below specs/, or None."""
        key = (crate, *path)
        if key not in self.read:
            text = None
            for end in (".antt", "/Lib.antt"):
                name = f"{crate}/specs/{'/'.join(path)}{end}" if path else f"{crate}/specs/Lib.antt"
                if crate in self.code.roots:
                    text = text or self.sources.get(f"crates/{name}")
                elif os.path.isfile(f"{KIT}/{name}"):
                    text = text or text_of(f"{KIT}/{name}")
            self.read[key] = None if text is None else File(text)
        return self.read[key]

    @functools.lru_cache(maxsize=None)
    def means(self, path):
        """The id of what a path of the logic means. The path is a tuple."""
        if path[:1] != ("Rattle",) or len(path) < 4 or path[2] != "specs":
            return ".".join(path)
        crate, rest = path[1], path[3:]
        if rest[0] == "declared":
            return self.declared(crate, rest[1:])
        lib = self.file(crate, ())
        if lib and rest[0] in lib.uses:
            return self.means((*lib.uses[rest[0]].path, *rest[1:]))
        length = next((n for n in range(len(rest), 0, -1) if self.file(crate, rest[:n])), 0)
        if not length or length == len(rest):
            return ".".join([crate, *rest])
        file, name = self.file(crate, rest[:length]), rest[length]
        if name not in file.declared and name not in file.parts:
            if name in file.uses and file.uses[name].path != path[: length + 4]:
                return self.means((*file.uses[name].path, *rest[length + 1 :]))
            for glob in file.globs:
                below = self.file(crate, (*rest[:length], *glob))
                if below and (name in below.declared or name in below.parts):
                    return ".".join([crate, *rest[:length], *glob, *rest[length:]])
        return ".".join([crate, *rest])

    def declared(self, crate, rest):
        """The id of what a path below `specs.declared` of a crate means: the path of the code."""
        plain = [it for it in rest if it not in ("TheVariants", "TheConstants")]
        # A type has a module of its name around it.
        if len(plain) > 1 and plain[-1] == plain[-2]:
            plain.pop()
        if crate not in self.code.roots:
            return "::".join([crate, *plain])
        found = self.code.descend(self.code.roots[crate], plain)
        return found.id() if isinstance(found, Module) else found.id

    def definitions(self):
        """The definitions of the repository, each with its id."""
        for path in self.sources:
            if path.endswith(".antt"):
                _, crate, _, *rest = path[:-5].split("/")
                rest = rest[:-1] if rest[-1] == "Lib" else rest
                file = self.file(crate, tuple(rest))
                for name, it in file.declared.items():
                    yield ".".join([crate, *rest, name]), it, file, (crate, *rest)
