"""What the definitions and the contracts of the repository name, found by scopes: the names of a file of
the logic by what it declares and imports, those of a clause by its parameters, by the `ghost use` lines
of its block and its file, and by what Rust sees there.

A name means a definition, a function, a module or something of the kit. Names that mean none of these are
kept in `World.unresolved`."""
import functools
import os
import re

from logic import Definition, Free, LogicFile, imports_of, tokens_of
from repository import Listing
from sources import Declared, Function, Module, Sources, closing, parts_of, paths_of

# What the logic has with no import.
PRELUDE = frozenset(
    "IsProp IsSet ⊥ absurd ¬ Dec yes no Discrete ∥ ∥₁ ∣ ∣₁ squash₁ Unit tt Id J Path refl".split()
)
# What Rust and the kit's std have with no import.
RUST_PRELUDE = frozenset(
    "std core Option Some None Result Ok Err Vec String Box Copy Clone Drop Send Sync Sized Fn FnMut FnOnce"
    " Iterator IntoIterator DoubleEndedIterator ExactSizeIterator Extend From Into TryFrom TryInto Default"
    " PartialEq Eq PartialOrd Ord AsRef AsMut ToOwned ToString HostRuntime AllocGlobal Print".split()
)
PRIMITIVES = frozenset("u8 u16 u32 u64 u128 usize i8 i16 i32 i64 i128 isize bool char str f32 f64".split())
# Constructors of the kit, which a pattern does not bind; variants are known by their module.
KIT_CONSTRUCTORS = frozenset("zero suc [] ◌∷◌ true false pos negsuc Some None Ok Err inl inr tt refl".split())
# Ghost members that prove something of a type, and are no part of what a contract means.
PROOFS = frozenset(["coded", "from_gives"])
VARIANTS = "TheVariants"


class Kit:
    """Something of the kit: a path of the logic, or one of Rust."""

    def __init__(self, words, joint="."):
        self.words, self.joint = tuple(words), joint

    def __str__(self):
        return self.joint.join(self.words)

    def __eq__(self, other):
        return isinstance(other, Kit) and str(self) == str(other)

    def __hash__(self):
        return hash(str(self))


class Constructor:
    """A constructor or a variant, with the type that it is of."""

    def __init__(self, of):
        self.of = of


# A module of the logic: a file, or what the sources declare at a path.
PLACE = object()
# What a clause names and no one has to read: a type parameter.
NOTHING = object()


def is_constructor(target):
    """Whether what a name means is a constructor."""
    if isinstance(target, Kit):
        return target.words[-1] in KIT_CONSTRUCTORS or VARIANTS in target.words
    return isinstance(target, Constructor)


def has_member(target, name):
    """Whether this is a trait of the repository with a ghost member of this name."""
    is_trait = isinstance(target, Declared) and target.kind == "trait"
    return is_trait and any(it.name == name for it in target.block.ghosts)


def absolute(modules, words):
    """A path of the logic, with the alias that it begins with written out."""
    words = list(words)
    while words[0] in modules and modules[words[0]][0] != words[0]:
        words = [*modules[words[0]], *words[1:]]
    return words


class World:
    """The crates of the repository, each read when something in it is asked for."""

    def __init__(self, listing=None):
        self.listing = listing or Listing()
        self.files, self.sources, self.unresolved = {}, {}, set()

    def miss(self, path, line, name):
        """Notes a name without a meaning."""
        self.unresolved.add((os.path.relpath(path, self.listing.top), line, name))

    # Names of the logic.

    def file(self, crate, part, module):
        """A file of specs/ or proofs/, or None."""
        key = (crate, part, module)
        if key not in self.files:
            base = "/".join([self.listing.top, "crates", crate, part, *module])
            path = next(filter(os.path.isfile, [f"{base}.antt", f"{base}/Lib.antt"]), None)
            self.files[key] = LogicFile(crate, module, path) if path else None
            for line, word in self.files[key].odd if path else ():
                self.miss(path, line, f"a line that begins with {word}")
        return self.files[key]

    def look(self, words):
        """What a whole path of the logic means, or None."""
        if words[0] != "Rattle" or words[1] not in self.listing.rows:
            return Kit(words[words[0] == "Rattle" :])
        crate, part, *rest = words[1:]
        if rest[:1] == ["declared"]:
            return self.look_declared(crate, rest[1:])
        module = ()
        while file := self.file(crate, part, module):
            if not rest:
                return PLACE
            if rest[0] not in file.mods or len(rest) == 1 and rest[0] in file.own:
                return self.in_file(file, rest)
            module, rest = (*module, rest[0]), rest[1:]
        return None

    def in_file(self, file, words):
        """What a path means that begins with a name which this file declares or imports, or None. What
        follows the name of a definition is its fields, unless a module has that name too."""
        name, *rest = words
        if name in file.own:
            made, is_one = file.own[name]
            if rest and made.kind == "data" and rest[0] in made.members:
                return Constructor(made)
            if not rest or name not in file.modules:
                return Constructor(made) if is_one else made
        if name in file.modules and (rest or name not in file.names):
            if found := self.look([*absolute(file.modules, file.modules[name]), *rest]):
                return found
        if name in file.names:
            path = absolute(file.modules, file.names[name])
            return rest and self.look([*path, *rest]) or self.look(path)
        return None

    def name_in(self, file, words):
        """What a path means in a file of the logic, or None."""
        if words[0] in file.own or words[0] in file.names or words[0] in file.modules:
            return self.in_file(file, words)
        if words[0] in file.operators:
            return self.in_file(file, [file.operators[words[0]]])
        return self.of_prelude(words)

    def of_prelude(self, words):
        """What a path means with no import, or None."""
        if words[0] == "Rattle":
            return next(filter(None, (self.look(words[:n]) for n in range(len(words), 3, -1))), None)
        if words[0] == "Prim":
            return Kit(words)
        return Kit(["Prim", words[0]]) if words[0].strip("◌") in PRELUDE else None

    def look_declared(self, crate, rest):
        """What a path below `specs.declared` of a crate means, or None."""
        module = self.crate(crate).root
        while rest and rest[0] in module.mods:
            module, rest = module.mods[rest[0]], rest[1:]
        if not rest:
            return PLACE
        if rest[0] == "TheConstants":
            return self.rust(module, rest[1:]) if rest[1:] else PLACE
        item = self.rust(module, rest[:1])
        if not isinstance(item, Declared):
            return item if isinstance(item, Kit) else None
        if len(rest) == 1 or rest[1:] == [VARIANTS]:
            return PLACE
        if rest[1] == VARIANTS or rest[1] in item.variants:
            return Constructor(item) if rest[-1] in item.variants else None
        return item

    # Names of Rust.

    def crate(self, name):
        """The sources of a crate."""
        if name not in self.sources:
            self.sources[name] = Sources(name, f"{self.listing.top}/crates/{name}")
        return self.sources[name]

    def rust(self, module, words, seen=()):
        """What a path means in a module of Rust, or None."""
        head, rest = words[0], words[1:]
        if head in ("crate", "self", "super"):
            start = {"crate": self.crate(module.crate).root, "self": module, "super": module.parent}[head]
            return self.into(start, rest, seen)
        found = self.member(module, head, seen)
        if found is None and head in self.listing.rows and head in (module.crate, *self.listing.rows[module.crate]):
            found = self.crate(head).root
        elif found is None and head in (*RUST_PRELUDE, *self.listing.rows[module.crate]):
            return Kit(words, "::")
        return self.into(found, rest, seen)

    def member(self, module, name, seen=()):
        """What a module declares, has below it or brings in by this name, or None."""
        if (module, name) in seen:
            return None
        seen = (*seen, (module, name))
        if name in module.items or name in module.mods:
            return module.items.get(name) or module.mods[name]
        if name in module.uses:
            return self.rust(module, module.uses[name][0], seen)
        for words in module.globs:
            if found := self.into(self.rust(module, words, seen), [name], seen):
                return found
        return None

    def into(self, found, rest, seen=()):
        """What the rest of a path means below what its head means, or None."""
        if not rest or found is None:
            return found
        if isinstance(found, Kit):
            return Kit([*found.words, *rest], "::")
        if isinstance(found, Module):
            return self.into(self.member(found, rest[0], seen), rest[1:], seen)
        if isinstance(found, Declared):
            return Constructor(found) if rest[0] in found.variants else self.associated(found, rest[0])
        return None

    def associated(self, owner, name):
        """The constant that a type has by this name, or None."""
        return next((it.consts[name] for it in self.impls(owner) if name in it.consts), None)

    @functools.lru_cache(maxsize=None)
    def impls_by_type(self, crate):
        """The impls of a crate, by the type that each is of."""
        found = {}
        for block in (it for module in self.crate(crate).modules for it in module.impls):
            of = self.owner(block)
            if isinstance(of, Declared):
                found.setdefault(of, []).append(block)
        return found

    def impls(self, made):
        """The impls of a type in its own crate."""
        return self.impls_by_type(made.crate).get(made, [])

    def owner(self, block):
        """The type or trait of a block, or None where that is none of the repository."""
        words = next(paths_of(block.of), None) if block else None
        return self.rust(block.module, words) if words else None

    # What is named.

    @functools.lru_cache(maxsize=None)
    def names(self, made):
        """What a definition names, in the order of its text, each once."""
        found = self.of_source(made) if isinstance(made, Declared) else self.of_logic(made)
        return tuple(it for it in dict.fromkeys(found) if it is not made)

    def of_logic(self, made):
        """What a definition of the logic names."""
        file = made.file
        free, found = Free(lambda words: is_constructor(self.name_in(file, words))), []
        for part in made.parts:
            free.part(part, file)
        for words, at in free.found:
            self.take(self.name_in(file, words), found, (file.path, file.line_of(at), ".".join(words)))
        return found

    def take(self, target, found, place):
        """Adds the definition that a name means; notes a name that means none."""
        target = target.of if isinstance(target, Constructor) else target
        if isinstance(target, (Definition, Kit)):
            found.append(target)
        elif target is not NOTHING:
            self.miss(*place)

    def of_source(self, made):
        """What a declared item names."""
        if made.kind == "trait":
            return self.of_trait(made)
        scope = Scope(self, made.source, None, made, made.generics(), made.first)
        if made.kind in ("const", "static", "type"):
            return scope.types(made.text()[made.start : made.end].partition(made.name)[2])
        found, fields = scope.bounds(), list(made.fields())
        names = [name for name, *_ in fields if name]
        for _, start, end, is_ghost in fields:
            found += scope.facts(start, end, names) if is_ghost else scope.types(made.text()[start:end])
        for block, ghost in self.ghosts(made):
            found += Scope(self, block.module, block, made, block.generics).facts(ghost.start, ghost.end)
        return found

    def ghosts(self, made):
        """The ghost members that the impls of a type give it, each with its impl."""
        blocks = self.impls(made) if isinstance(made, Declared) and made.kind != "trait" else ()
        return [(it, ghost) for it in blocks for ghost in it.ghosts if ghost.name not in PROOFS]

    def of_trait(self, made):
        """What a trait names: the traits above it, its members, and the contracts of its methods."""
        block = made.block
        scope = Scope(self, made.source, block, made, block.generics, made.first)
        found = scope.bounds() + scope.types(block.trait)
        for ghost in block.ghosts:
            found += scope.facts(ghost.start, ghost.end)
        return found + [it for function in block.functions for it in self.of_call(function)]

    def of_call(self, function):
        """What the signature and the clauses of a call name."""
        scope = self.scope_of(function)
        is_method = isinstance(scope.owner, Declared) and re.search(r"\bself\b", function.params)
        found = [scope.owner] if is_method else []
        found += scope.types(function.params) + scope.types(function.result) + scope.bounds()
        if function.block and function.block.trait and not function.clauses:
            # Its contract is the trait's.
            found += scope.types(function.block.trait)
        return found + self.of_clauses(function)

    def of_clauses(self, function):
        """What the clauses of a call name."""
        scope, bound = self.scope_of(function), [*function.parameters(), "result"]
        return [it for clause in function.clauses for it in scope.term(clause.start, clause.end, bound)]

    def scope_of(self, function):
        """The scope of the clauses of a function."""
        block = function.block
        generics = (*function.generics, *(block.generics if block else ()))
        line = function.module.file.line_of(function.start)
        return Scope(self, function.module, block, self.owner(block), generics, line)

    # Calls, and what they reach.

    @functools.lru_cache(maxsize=None)
    def handed_out(self, crate):
        """What a crate hands out, by name."""
        found = {}
        self.hand_out(self.crate(crate).root, "", found)
        return found

    def hand_out(self, module, prefix, found):
        """Adds what a module hands out, and what the modules do that it hands out."""
        given = {name: item for name, item in module.items.items() if item.is_public}
        given.update((name, module.mods[name]) for name in module.public_mods)
        passed = ((name, words) for name, (words, is_public) in module.uses.items() if is_public)
        given.update((name, self.rust(module, words)) for name, words in passed)
        for name, target in given.items():
            if isinstance(target, Module) and target.crate == module.crate:
                self.hand_out(target, f"{prefix}{name}::", found)
            elif isinstance(target, (Function, Declared)):
                found[prefix + name] = target

    @functools.lru_cache(maxsize=None)
    def calls(self, crate):
        """The public calls of a crate by name: the functions, and the methods of the types and traits, that it
        hands out. A method of an impl of the kit's traits is one if it has clauses of its own."""
        found = {}
        for name, target in self.handed_out(crate).items():
            if isinstance(target, Function) and target.module.crate == crate:
                found[name] = target
            elif isinstance(target, Declared) and target.crate == crate:
                blocks = [target.block] if target.kind == "trait" else self.impls(target)
                methods = [(block, it) for block in blocks for it in block.functions]
                found.update((f"{name}::{it.name}", it) for block, it in methods if self.is_called(block, it))
        return found

    def is_called(self, block, function):
        """Whether a method of what is handed out is a public call."""
        if block.is_trait or not block.trait:
            return block.is_trait or function.is_public
        of_own = isinstance(self.scope_of(function).types(block.trait)[0], Declared)
        return of_own or bool(function.clauses)

    def root(self, path):
        """What a path names from which reading may begin: the call `crate::call` or `crate::Type::call`, or the
        definition `crate.File.name`; or None."""
        crate, _, rest = path.partition("::")
        if rest:
            return self.calls(crate).get(rest) if crate in self.listing.rows else None
        crate, *words = path.split(".")
        found = self.look(["Rattle", crate, "specs", *words]) if crate in self.listing.rows and words else None
        return found if isinstance(found, Definition) else None

    def reached(self, roots):
        """The definitions that these calls and definitions reach, each after what it names unless that leads back
        to it, in the order of crates.txt; and what they reach of the kit."""
        seen, kit, waiting = set(), set(), []
        for root in roots:
            waiting += self.of_call(root) if isinstance(root, Function) else [root]
        while waiting:
            made = waiting.pop()
            if isinstance(made, Kit):
                kit.add(made)
            elif made not in seen:
                seen.add(made)
                waiting += self.names(made)
        return self.in_order(seen), sorted(kit, key=str)

    def in_order(self, definitions):
        """These definitions by crate and file, each after what it names of them."""
        crates = {name: n for n, name in enumerate(self.listing.rows)}
        order, seen = [], set()
        for head in sorted(definitions, key=lambda it: (crates[it.crate], it.path, it.first)):
            stack = [] if head in seen else [(head, iter(self.names(head)))]
            seen.add(head)
            while stack:
                below = next((it for it in stack[-1][1] if isinstance(it, Definition) and it not in seen), None)
                if below is None:
                    order.append(stack.pop()[0])
                else:
                    seen.add(below)
                    stack.append((below, iter(self.names(below))))
        return order

    def places(self, made):
        """Where a definition is: each file with its first and last line. The ghost members that impls give a type
        come after it."""
        files = [(block.module.file, ghost) for block, ghost in self.ghosts(made)]
        more = ((it.path, it.line_of(ghost.start), it.line_of(ghost.end)) for it, ghost in files)
        return [(made.path, made.first, made.last), *more]

    def lines(self, made):
        """How many lines of a definition say something, with the ghost members that impls give a type."""
        files = [(block.module.file, ghost) for block, ghost in self.ghosts(made)]
        return made.lines + sum(it.code_lines(ghost.start, ghost.end) for it, ghost in files)


class Scope:
    """What is around a clause or a type of Rust: its module, its block, the type or trait that this is of, and
    its type parameters."""

    def __init__(self, world, module, block, owner, generics, line=1):
        self.world, self.module, self.block, self.owner, self.line = world, module, block, owner, line
        # The bounds of each type parameter, and the constant parameters.
        self.traits, self.consts = {}, set()
        for text in generics:
            for part in parts_of(re.sub(r"^\s*<|>\s*$", "", text) if text.lstrip().startswith("<") else text):
                self.take_parameter(part)
        # What `ghost use` lines bring in: those of the block come before those of the file.
        self.names, self.modules = {}, {}
        for text in (*module.imports, *(block.imports if block else ())):
            for known, words, is_module in imports_of(tokens_of(text)):
                (self.modules if is_module else self.names)[known] = words
        self.operators = {part: it for it in self.names if "◌" in it for part in it.split("◌") if part}

    def take_parameter(self, text):
        """Takes a parameter with its bounds."""
        found = re.match(r"(const\s+)?([A-Za-z]\w*)\s*(?::(?!:)(.*))?$", text, re.S)
        if found and found[1]:
            self.consts.add(found[2])
        elif found:
            self.traits.setdefault(found[2], []).append(found[3] or "")

    def bounds(self):
        """What the bounds of the type parameters name."""
        return [it for bounds in self.traits.values() for text in bounds for it in self.types(text)]

    def types(self, text):
        """What a type or a bound names."""
        found = []
        for words in paths_of(text):
            if words == ["self"] or words[0] in (*PRIMITIVES, *self.traits, *self.consts):
                continue
            if words[0] == "Self":
                target = self.owner if isinstance(self.owner, Declared) and len(words) == 1 else NOTHING
            else:
                target = self.world.rust(self.module, words)
            self.world.take(target, found, (self.module.file.path, self.line, "::".join(words)))
        return found

    def facts(self, start, end, bound=()):
        """What the terms in braces name between two places; what follows `by` is a proof."""
        text, at, found = self.module.file.text, start, []
        while (opening := text.find("{", at, end)) >= 0:
            last = closing(text, opening)
            if not re.search(r"\bby\s*$", text[at:opening]):
                found += self.term(opening + 1, last, bound)
            at = last + 1
        return found

    def term(self, start, end, bound):
        """What a term of the logic names between these places of the file."""
        file = self.module.file
        free, found = Free(lambda words: is_constructor(self.name(words))), []
        free.term(tokens_of(file.text, start, end), frozenset([*bound, *self.consts]))
        for words, at in free.found:
            self.world.take(self.name(words), found, (file.path, file.line_of(at), ".".join(words)))
        return found

    def name(self, words):
        """What a path of a clause means, or None."""
        head, rest = words[0], words[1:]
        if head in self.traits:
            return self.of_parameter(self.traits[head], rest)
        if head == "Self":
            return self.of_self(rest)
        if head in self.modules and (rest or head not in self.names):
            if found := self.world.look([*absolute(self.modules, self.modules[head]), *rest]):
                return found
        if head in self.names or head in self.operators:
            path = absolute(self.modules, self.names[self.operators.get(head, head)])
            return rest and self.world.look([*path, *rest]) or self.world.look(path)
        if head in PRIMITIVES:
            return Kit(words, "::")
        found = self.of_block(head) or self.world.rust(self.module, words)
        # What follows the name of a constant is its fields.
        return found or self.world.rust(self.module, words[:1]) or self.world.of_prelude(words)

    def of_parameter(self, bounds, rest):
        """The trait whose member is named of a type parameter."""
        if not rest:
            return NOTHING
        traits = [it for text in bounds for it in self.with_above(text)]
        found = next((it for it in traits if has_member(it, rest[0])), None)
        kit = next((it for it in traits if isinstance(it, Kit)), None)
        return found or kit and Kit([*kit.words, *rest], "::")

    def with_above(self, text):
        """The traits that a bound names, with those that they go on from."""
        found = self.types(text)
        for target in list(found):
            if isinstance(target, Declared) and target.kind == "trait":
                above = Scope(self.world, target.source, target.block, target, target.block.generics)
                found += above.with_above(target.block.trait)
        return found

    def of_self(self, rest):
        """A constant or a member of the type or trait around, or that itself."""
        if not isinstance(self.owner, Declared):
            return NOTHING
        return rest and self.world.associated(self.owner, rest[0]) or self.owner

    def of_block(self, head):
        """The trait of whose members this is one, in the trait or in an impl of it, or None."""
        if self.block is None:
            return None
        if any(it.name == head for it in self.block.ghosts):
            return self.owner if isinstance(self.owner, Declared) else NOTHING
        traits = self.types(self.block.trait) if self.block.trait else []
        return next((it for it in traits if has_member(it, head)), None)
