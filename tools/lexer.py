"""Code, comments and literals of a text of Rattle (`.rt`) or of its logic (`.antt`), told apart."""
import re

# What is no code in a text of Rattle, and in one of its logic.
RUST = re.compile(
    r"""(?P<line>//[^\n]*)|(?P<block>/\*)"""
    r"""|(?P<literal>[bc]?r(?P<hashes>#*)".*?"(?P=hashes)|[bc]?"(?:[^"\\]|\\.)*"|b?'(?:[^'\\\n]|\\[^\n][^'\n]*)')""",
    re.S,
)
# In the logic two hyphens begin a comment only where no name goes on with them.
LOGIC = re.compile(
    r"""(?P<block>\{-)|(?P<line>(?<![^\s(){}.;,@"»])--[^\n]*)|(?P<literal>"(?:[^"\\\n]|\\[^\n])*")""",
    re.S,
)


def end_of_block(text, at, opens, closes):
    """Where the comment that begins at this place ends; such comments nest."""
    depth = 0
    for it in re.compile(f"{re.escape(opens)}|{re.escape(closes)}").finditer(text, at):
        depth += 1 if it[0] == opens else -1
        if not depth:
            return it.end()
    return len(text)


def pieces(text, is_logic):
    """The pieces of a text, each with its kind: code, comment or literal. Together they are the text."""
    at, marks = 0, LOGIC if is_logic else RUST
    while found := marks.search(text, at):
        start, end = found.span()
        if found["block"]:
            end = end_of_block(text, start, *(("{-", "-}") if is_logic else ("/*", "*/")))
        yield "code", text[at:start]
        yield "literal" if found["literal"] else "comment", text[start:end]
        at = end
    yield "code", text[at:]


def blanked(text, is_logic=False, kinds=("comment", "literal")):
    """The text with blanks in the place of pieces of these kinds, so that every place stays."""
    parts = []
    for kind, piece in pieces(text, is_logic):
        parts.append(re.sub(r"[^\n]", " ", piece) if kind in kinds else piece)
    return "".join(parts)


def bare(text, is_logic=False):
    """The text without what says nothing: comments, and how its lines are broken.

    White space between two words stays, as one blank, since `a - b` and `a-b` may differ; beside a
    bracket, a comma or a semicolon it goes. So does what rt fmt adds where it breaks a list: the
    comma before a closing bracket on a line of its own, and the break before a point."""
    literals, parts = [], []
    for kind, piece in pieces(text, is_logic):
        if kind == "literal":
            literals.append(piece)
        parts.append({"code": piece, "comment": " ", "literal": "\0"}[kind])
    code = re.sub(r",[^\S\n]*\n\s*(?=[)\]}])", "", "".join(parts))
    if not is_logic:
        code = re.sub(r"\s*\n\s*(?=[.?])", "", code)
    code = re.sub(r"\s*([()\[\]{},;])\s*", r"\1", code)
    return "\0".join([re.sub(r"\s+", " ", code).strip(), *literals])


def words_of_comment(lines, mark):
    """The words of these lines of a comment, up to the first line without any."""
    said = []
    for line in lines:
        words = line.strip().removeprefix(mark).strip()
        if not words:
            break
        said.append(words)
    return " ".join(said)


def comment_above(lines, end, mark):
    """The words of the comment that ends right above line `end` of these, counted from 0."""
    start = end
    while start and lines[start - 1].strip().startswith(mark):
        start -= 1
    return words_of_comment(lines[start:end], mark)


def comment_from(lines, mark):
    """The words of the first paragraph of the comment with which a text begins."""
    end = next((n for n, line in enumerate(lines) if not line.startswith(mark)), len(lines))
    return words_of_comment(lines[:end], mark)
