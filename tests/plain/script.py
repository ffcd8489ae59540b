"""The script of `crates/worked_rows`: its files, and its calls with what is said of each. `src/script.rt` has
the words."""
import os
import re

ESCAPE = re.compile(r"\\(x[0-9a-f]{2}|.)", re.S)


def bytes_of(text):
    """The bytes of a text with its escapes."""
    def byte(found):
        it = found[1]
        return {"r": "\r", "t": "\t"}.get(it) or (chr(int(it[1:], 16)) if len(it) > 1 else it)

    return ESCAPE.sub(byte, text).encode("latin-1")


def line_of(text):
    return bytes_of(text[:-2]) if text.endswith("\\c") else bytes_of(text) + b"\n"


class Call:
    """The words without the program's name, the files that there are, and what is said: the lines before it. A file
    that an earlier call made is None."""

    def __init__(self, words, files, said):
        self.words = ["" if word == "''" else word for word in words.split()[1:]]
        self.files, self.said, self.shown = dict(files), dict(said), words

    def text(self, status, line, output):
        """What the transcript has of this answer."""
        wanted = self.said.get("output")
        if wanted is not None and self.files.get(wanted) == output:
            shown = f"({wanted})\n".encode()
        else:
            shown = output + (b"" if output.endswith(b"\n") or not output else b"\\c\n")
        return shown + (b"! " + line if line else b"") + f"= {status}\n".encode()


class Script:
    def __init__(self, folder):
        self.files, self.said, self.newest, self.calls = {}, {}, "", []
        for at, _, names in os.walk(f"{folder}/data"):
            for name in names:
                with open(f"{at}/{name}", "rb") as it:
                    self.files[os.path.relpath(f"{at}/{name}", f"{folder}/data")] = it.read()
        with open(f"{folder}/stdin", encoding="latin-1", newline="\n") as it:
            for line in it.read().split("\n"):
                if line and not line.startswith("#"):
                    self.play(*line.partition(" ")[::2])

    def play(self, word, rest):
        if word == "$":
            self.calls.append(Call(rest, self.files, self.said))
            if "keep" in self.said:
                self.files[self.said["keep"]] = None
            self.said = {}
        elif word == "file":
            self.newest = rest
            self.files[rest] = b""
        elif word in ("|", "copy", "times", "line", "pad"):
            self.files[self.newest] = self.edited(self.files[self.newest], word, rest)
        else:
            self.said[word if word not in ("out", "err", "shelf") else f"{word} {rest}"] = rest

    def edited(self, text, word, rest):
        number, _, tail = rest.partition(" ")
        if word == "|":
            return text + line_of(rest)
        if word == "copy":
            return text + self.files.get(rest, b"")
        if word == "pad":
            return text + b"#" * (int(rest) - len(text))
        if word == "times":
            return text + b"".join(line_of(tail.replace("%", str(n), 1)) for n in range(int(number)))
        lines = re.findall(rb"[^\n]*\n|[^\n]+\Z", text)
        lines[int(number) - 1] = line_of(tail)
        return b"".join(lines)
