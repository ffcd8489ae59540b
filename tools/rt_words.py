"""Heads, types and clauses in a normal form: as words, each with its id if it is a name.

Layout and comments are away, and a path is its last name; a variant keeps its type, as `Source.Own`."""
import re

from rt_names import PLAIN, Code, Logic, Module, logic_words

NAME = re.compile(r"[^\W\d]\w*")
# What std hands out everywhere: another thing of such a name keeps the module that it is of.
PRELUDE = {"Result", "Option", "Vec", "String", "Box", "Error"}
NUMBERS = {f"{sign}{size}" for sign in "ui" for size in (8, 16, 32, 64, 128, "size")} | {"f32", "f64", "char", "bool"}
# Words of code with no blank before them, and with none after them.
CLOSES = {")", "]", ">", ",", ";", ":", "::", ".", "?", "..", "..="}
OPENS = {"(", "[", "<", "&", "::", ".", "#", "!", "..", "..=", "*", "$", "@"}


class Word:
    """A word of a normal form, and its id: None if it is no name that was brought or declared."""

    def __init__(self, text, id=None):
        self.text, self.id = text, id


class Line:
    """A line of a normal form: parts that are code (`code`), logic (`logic`) or words as they are (`plain`)."""

    def __init__(self, *parts):
        self.parts = parts

    def words(self):
        return [it for _, words in self.parts for it in words]

    def text(self, whole=()):
        """The line as a text. Words with one of the ids in `whole` are shown as this id."""
        joins = {"code": joined_code, "logic": joined_logic, "plain": " ".join}
        shown = ([it.id if it.id in whole else it.text for it in words] for _, words in self.parts)
        made = (joins[kind](words) for (kind, _), words in zip(self.parts, shown))
        return " ".join(filter(None, made)).replace(" : {", ": {")


def plain(text):
    return "plain", [Word(text)]


def joined_code(words):
    """Words of code as a text: the blanks are where rt fmt puts them, or nearly."""
    made, last = "", ""
    for word in words:
        is_tight = word in CLOSES or last in OPENS or not last
        if word in ("(", "<"):
            is_tight |= bool(NAME.fullmatch(last)) or last in (">", "!")
        made += word if is_tight else f" {word}"
        last = word
    return made


def joined_logic(words):
    made, last = "", ""
    for word in words:
        is_field = word[0] == "." and len(word) > 1
        is_tight = is_field or word in (")", ",", ";", ".", "}") or last in ("(", "{", "@", "")
        made += word if is_tight else f" {word}"
        last = word
    return made


def trimmed(words):
    """The words of code without the comma before a closing bracket, but for that of a tuple of one."""
    made, opened = [], []
    for word in words:
        if word in ("(", "[", "{", "<"):
            # How many commas are in it, and whether it is one of a call or of parameters.
            opened.append([0, made[-1:] and (NAME.fullmatch(made[-1].text) or made[-1].text == ">")])
        elif word == ",":
            for it in opened[-1:]:
                it[0] += 1
        elif word in (")", "]", "}", ">"):
            commas, is_call = opened.pop() if opened else (0, True)
            if made and made[-1].text == "," and (word != ")" or commas > 1 or is_call):
                made.pop()
        made.append(Word(word))
    return [it.text for it in made]


def generics(words):
    """The names of the parameters in angles with which a head begins."""
    if words[:1] != ["<"]:
        return set()
    found, depth, last = set(), 0, ""
    for word in words:
        depth += {"<": 1, ">": -1, "(": 1, ")": -1}.get(word, 0)
        if depth == 1 and last in ("<", ",", "const") and NAME.fullmatch(word) and word != "const":
            found.add(word)
        if not depth:
            break
        last = word
    return found


def parameters(words):
    """The names of the parameters of a function."""
    found, depth, last = {"self"}, 0, ""
    for at, word in enumerate(words):
        if word in ("(", "["):
            depth += 1
        elif word in (")", "]"):
            depth -= 1
        if depth == 1 and words[at + 1 : at + 2] == [":"] and last in ("(", ",", "mut"):
            found.add(word)
        if not depth and last == ")" and word == "->":
            break
        last = word
    return found


def bound(words):
    """The names that a term of the logic binds: of `λ`, of `let`, and of `(x : A)`."""
    found = set()
    for at, word in enumerate(words):
        if word not in ("λ", "(", "{", "let"):
            continue
        names, ends = [], {"λ": (".",), "let": ("=", ":")}.get(word, (":",))
        for it in words[at + 1 :]:
            if it in ends:
                found.update(names)
                break
            if word in ("(", "{") and it in "(){};,.=" or it == ";":
                break
            names.append(it)
    return found


class World:
    """The code and the definitions of the repository at one time."""

    def __init__(self, sources):
        self.code = Code(sources)
        self.logic = Logic(sources, self.code)


class Scope:
    """What names mean at a place of the code."""

    def __init__(self, world, module, ghosts=(), local=()):
        self.world, self.module, self.local = world, module, frozenset(local)
        self.brought = {**dict(module.ghosts if module else ()), **dict(ghosts)}
        # The parts of operators that are brought.
        operators = [it for it in self.brought if "◌" in it]
        self.operators = {part: self.brought[it] for it in operators for part in it.split("◌") if part}

    def inside(self, ghosts=(), local=()):
        """The scope of an item in this one."""
        return Scope(self.world, self.module, {**self.brought, **dict(ghosts)}, self.local | set(local))

    # code

    def code_words(self, words):
        """Words of code, each with its id."""
        words, at, made = trimmed(words), 0, []
        while at < len(words):
            end = at + 1
            if NAME.fullmatch(words[at]) and (not made or made[-1].text not in ("::", ".")):
                while words[end : end + 1] == ["::"] and NAME.fullmatch("".join(words[end + 1 : end + 2])):
                    end += 2
            made += self.of_path(words[at:end])
            at = end
        return made

    def of_path(self, words):
        """A path of code, or a word that is none."""
        path = words[::2]
        is_plain = len(path) == 1 and not path[0][0].isupper()
        if is_plain or path[0] == "Self" or path[0] in self.local:
            return [Word(it) for it in words]
        means = self.world.code.follow(self.module, path)
        if isinstance(means, Module):
            return [Word(path[-1], means.id())]
        if means.item:
            shown = [means.item.name, *means.rest]
        else:
            whole = means.id.split("::")
            of_type = whole[-2:-1] and (whole[-2] in NUMBERS or whole[-2][0].isupper())
            shown = whole[-2:] if of_type or whole[-1] in PRELUDE else whole[-1:]
        return [Word("::".join(shown), means.id)]

    def code_part(self, words):
        return "code", self.code_words(words)

    # logic

    def logic_words(self, words, local):
        """Words of the logic, each with its id. Local names have none."""
        at, made = 0, []
        while at < len(words):
            word, field = words[at], words[at + 1] if at + 1 < len(words) else ""
            field = field[1:] if len(field) > 1 and field[0] == "." else ""
            found, taken = None, 1
            if word[0] not in '(){};,.@"' and word not in local and words[at + 1 : at + 2] != ["="]:
                found, taken = self.meant(word, field)
            if word == "}" and made and made[-1].text == ";":
                made.pop()
            made.append(found or Word(word))
            at += taken
        return made

    def meant(self, word, field):
        """A word of the logic with its id, by the field after it too, and how many words it is."""
        if brought := self.brought.get(word):
            if brought.is_module and field:
                return self.shown((*brought.path, field)), 2
            if not brought.is_module:
                return self.with_variant(self.shown(brought.path), field)
        if operator := self.operators.get(word):
            return Word(word, self.world.logic.means(operator.path)), 1
        if word[0].isupper() and self.module and (word in self.module.items or word in self.module.uses):
            means = self.world.code.follow(self.module, [word])
            if isinstance(means, Module) or means.item is not None and means.item.kind == "fn":
                return None, 1
            return self.with_variant(Word(means.item.name if means.item else word, means.id), field)
        if word in PLAIN:
            return Word(word, PLAIN[word]), 1
        return None, 1

    def with_variant(self, word, field):
        """A type of the code with the variant that a field names, or only the word."""
        if field and "::" in word.id:
            item = self.item(word.id)
            if item and any(it.kind == "variant" and it.name == field for it in item.members):
                return Word(f"{word.text}.{field}", f"{word.id}::{field}"), 2
        return word, 1

    def item(self, id):
        """The item of the repository that a path of code names, or names a part of, or None."""
        crate, *path = id.split("::")
        if crate not in self.world.code.roots:
            return None
        means = self.world.code.descend(self.world.code.roots[crate], path)
        return None if isinstance(means, Module) else means.item

    def shown(self, path):
        """What a path of the logic means, as a word."""
        id = self.world.logic.means(path)
        if "::" not in id:
            return Word(id.rpartition(".")[2], id)
        names = id.split("::")
        if item := self.item(id):
            return Word(".".join(names[len(names) - names[::-1].index(item.name) - 1 :]), id)
        return Word(names[-1], id)

    def logic_part(self, text):
        words = logic_words(text)
        return "logic", self.logic_words(words, self.local | bound(words))
