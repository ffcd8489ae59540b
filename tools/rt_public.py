"""What the crates of the repository hand out, item by item, in a normal form (`rt_words`)."""
from rt_items import Clause
from rt_names import Module, ghost_import
from rt_words import Line, Scope, Word, World, generics, joined_code, parameters, plain


class Entry:
    """A public item: its path from its crate on, its kind, its lines, and its id."""

    def __init__(self, path, kind, lines, id):
        self.path, self.kind, self.lines, self.id = tuple(path), kind, lines, id

    def shown(self):
        return spelled(self.path)

    def tail(self):
        """Its path without the crate."""
        return spelled(self.path[1:])

    def body(self):
        return "\n".join(f"    {it.text()}" for it in self.lines)

    def text(self):
        return f"{self.shown()}\n{self.body()}"


def spelled(path):
    """A path as a text. An impl of a trait ends with what it is for."""
    return "::".join(path).replace("::as ", " as ").replace("::for ", " for ")


class Public:
    """What the crates of the repository hand out at one time. A path is that of the crate which declares
    the item; where another crate hands it on, or the same crate by a second path, there is an entry for that."""

    def __init__(self, sources):
        self.world = World(sources)
        self.code, self.entries, self.homes = self.world.code, [], {}
        # All items of the code, private ones too, by their ids.
        self.items = {}
        for module in self.modules(self.code.roots):
            self.items.update((f"{module.id()}::{name}", (module, it)) for name, it in module.items.items())
        self.add_handed_out()
        for module in self.modules(self.code.libraries):
            for item in module.impls:
                self.add_impl(module, item)
        self.entries.sort(key=lambda it: (it.tail(), it.path))

    def modules(self, crates):
        return (it for name in crates for it in self.code.modules(self.code.roots[name]))

    def add(self, *what):
        self.entries.append(Entry(*what))

    def add_handed_out(self):
        handed = {path: it for name in self.code.libraries for path, it in self.code.handed_out(name).items()}
        for path in sorted(handed, key=lambda it: (len(it), it)):
            if is_home(path, handed[path]):
                self.homes.setdefault(handed[path].id, path)
        for path, means in handed.items():
            id = means.id() if isinstance(means, Module) else means.id
            if self.homes.get(id) == path:
                self.add_item(path, means)
            else:
                self.add(path, "handed on", [Line(plain("hands on"), ("code", [Word(id.rpartition("::")[2], id)]))], id)

    def add_item(self, path, means):
        item, scope = means.item, Scope(self.world, means.home)
        if item.kind == "trait":
            self.add_trait(path, means.id, scope, item)
        else:
            self.add(path, item.kind, lines_of(scope, item, means.id), means.id)

    def add_trait(self, path, id, scope, item):
        scope = scope.inside(ghosts_of(item), names_of_ghosts(item) | generics(item.head))
        self.add(path, "trait", [*attributes(scope, item), head_of(scope, item, id), *members(scope, item)], id)
        for it in item.members:
            if it.kind == "fn":
                its = f"{id}::{it.name}"
                self.add((*path, it.name), "trait method", function(scope, it, its), its)

    def add_impl(self, module, item):
        """The public methods of a public type, or an impl of a trait for one."""
        trait, of, rest = parts_of_impl(item.head)
        scope = Scope(self.world, module).inside(ghosts_of(item), generics(item.head))
        id = self.type_of(scope, of)
        home = self.homes.get(id)
        if trait:
            self.add_trait_impl(scope, item, trait, of)
        elif home:
            around = [Line(plain("of"), scope.code_part(["impl", *item.head]))] if scope.local or rest else []
            for it in item.members:
                if it.seen == "pub" and it.kind != "ghost use":
                    its = f"{id}::{it.name}"
                    self.add((*home, it.name), "method", [*around, *lines_of(scope, it, its)], its)

    def add_trait_impl(self, scope, item, trait, of):
        """An impl of a trait for a type, where neither is private."""
        ids = self.type_of(scope, of), self.type_of(scope, trait)
        homes = [self.homes.get(it) for it in ids]
        if any(id in self.items and not home for id, home in zip(ids, homes)) or not any(homes):
            return
        as_text = lambda words: joined_code([it.text for it in scope.code_words(words)])
        path = (*homes[0], f"as {as_text(trait)}") if homes[0] else (*homes[1], f"for {as_text(of)}")
        scope = scope.inside(local=names_of_ghosts(item))
        lines = [head_of(scope, item), *members(scope, item)]
        # A method without clauses has those of the trait.
        for it in item.members:
            if it.kind == "fn" and it.clauses:
                lines += function(scope, it)
        self.add(path, "impl", lines, f"{ids[0]} as {as_text(trait)}")

    def type_of(self, scope, words):
        """The id of the type of which a type is made, as `Name` in `&Name<T>`; None for a parameter."""
        names = [it for it in words if not it.startswith("'") and it not in ("&", "mut", "dyn", "(", "[")]
        end = 1
        while names[end : end + 1] == ["::"]:
            end += 2
        path = names[:end:2]
        if not path or path[0] in scope.local or not path[0][0].isalpha():
            return None
        means = self.code.follow(scope.module, path)
        return None if isinstance(means, Module) else means.id


def is_home(path, means):
    """Whether a crate hands out what it declares."""
    return not isinstance(means, Module) and means.item and not means.rest and means.home.crate == path[0]


def ghosts_of(item):
    """What the `ghost use` lines in an item bring."""
    return [it for member in item.members if member.kind == "ghost use" for it in ghost_import(member.text)]


def names_of_ghosts(item):
    return {it.name for it in item.members if it.kind == "ghost"}


def parts_of_impl(head):
    """The trait that an impl is of, the type, and the bounds after it, as words."""
    depth, at, first = 0, 0, 0
    if head[0] == "<":
        while at == 0 or depth:
            depth += {"<": 1, ">": -1}.get(head[at], 0)
            at += 1
        first = at
    parts = [[]]
    for word in head[first:]:
        depth += {"<": 1, "(": 1, ">": -1, ")": -1}.get(word, 0)
        if word in ("for", "where") and not depth and len(parts) < 3:
            parts += [[], []] if word == "where" and len(parts) == 1 else [[]]
        else:
            parts[-1].append(word)
    if "for" not in head[first:] or len(parts) == 1 or not parts[1]:
        return [], parts[0], parts[-1] if len(parts) > 1 else []
    return parts[0], parts[1], parts[2] if len(parts) > 2 else []


# ---------------------------------------------------------------- lines of an item

def attributes(scope, item):
    """The attributes of an item; those that are derived in the order of their names."""
    for it in item.attributes:
        if it[0] == "derive":
            names = sorted(joined_code([word.text]) for word in scope.code_words(it[2:-1]) if word.text != ",")
            ids = {word.text: word for word in scope.code_words(it[2:-1])}
            yield Line(plain("derives"), ("plain", [ids[name] for name in names]))
        else:
            yield Line(scope.code_part(["#", "[", *it, "]"]))


def head_of(scope, item, id=None):
    """The marks, the word, the name and the rest of an item. The name has the id of the item."""
    words = scope.code_words([*item.marks, item.kind, "_", *item.head])
    at = len(item.marks) + 1
    return Line(("code", [*words[:at], *[Word(item.name, id)] * bool(item.name), *words[at + 1 :]]))


def clause(scope, it):
    """A clause or a ghost member."""
    parts = [plain(" ".join(filter(None, [it.word, it.name])))]
    if it.type:
        parts += [plain(": {"), scope.logic_part(it.type), plain("}")]
    if it.text:
        parts += [plain("= {" if it.word.endswith("ghost") else "{"), scope.logic_part(it.text), plain("}")]
    return Line(*parts)


def function(scope, item, id=None):
    """A function: its head, and a line for each clause."""
    ghosts = {it.name for it in item.clauses if it.word == "ghost"}
    scope = scope.inside(local=generics(item.head) | parameters(item.head) | ghosts)
    return [*attributes(scope, item), head_of(scope, item, id), *(clause(scope, it) for it in item.clauses)]


def members(scope, item):
    """The ghost members, types and constants of a trait or an impl."""
    made = []
    for it in item.members:
        if it.kind == "ghost":
            made += [clause(scope, one) for one in it.clauses]
        elif it.kind in ("type", "const"):
            made.append(head_of(scope, it))
    return made


def lines_of(scope, item, id=None):
    """A function, a type, a constant, a static, an alias or a macro."""
    if item.kind == "fn":
        return function(scope, item, id)
    if item.kind == "macro_rules":
        return [Line(("plain", [Word(joined_code(it))])) for it in patterns(item.head)]
    if item.kind not in ("struct", "enum"):
        return [*attributes(scope, item), head_of(scope, item, id)]
    scope = scope.inside(local=generics(item.head))
    made = [*attributes(scope, item), head_of(scope, item, id)]
    of_fields = scope.inside(local={it.name for it in item.members if item.kind == "struct"})
    for it in item.members:
        if it.kind == "ghost":
            word = f"{it.seen} ghost".strip()
            made += [clause(of_fields, Clause(word, one.name, one.text, one.type)) for one in it.clauses]
        elif it.kind == "variant":
            made += [*attributes(scope, it), Line(("code", [Word(it.name), *scope.code_words(it.head)]))]
        elif it.seen == "pub":
            made += [*attributes(scope, it), Line(scope.code_part([it.name, ":", *it.head]))]
    if any(it.kind == "field" and it.seen != "pub" for it in item.members):
        made.append(Line(plain("and private fields")))
    return made


def patterns(words):
    """The patterns of a macro that are for others: a rule of its own begins with `@`."""
    at, depth, begins = 0, 0, 0
    while at < len(words):
        depth += {"(": 1, "[": 1, "{": 1, ")": -1, "]": -1, "}": -1}.get(words[at], 0)
        at += 1
        if not depth and words[at - 1] in (")", "]", "}"):
            if words[at : at + 1] == ["=>"] and words[begins + 1] != "@":
                yield words[begins:at]
            begins = at
        elif not depth:
            begins = at
