"""What `./build --prefix` puts below a folder: the programs, their manual pages and the manual, completions for three
shells, syntax files for editors, and the examples. The places are those where `man`, the shells and Vim look below
/usr/local."""
import os
import shutil

from commands import MANUAL, PROGRAMS
from completions import SHELLS
from editors import textmate_files, vim_files
from manual_pages import page
from repository import TOP

PAGES = "share/man/man1"
DOCUMENTS = "share/doc/syndex"
VIM = "share/vim/vimfiles"
TEXTMATE = "share/syndex/textmate"
# Where each shell looks for what completes the words of a program.
COMPLETIONS = {
    "bash": "share/bash-completion/completions/{}",
    "zsh": "share/zsh/site-functions/_{}",
    "fish": "share/fish/vendor_completions.d/{}.fish",
}


def texts():
    """The texts that are made, by their paths below the folder."""
    made = {f"{PAGES}/{it}.1": page(it) for it in PROGRAMS}
    for shell, completed in SHELLS.items():
        made |= {COMPLETIONS[shell].format(it): completed(it) for it in PROGRAMS}
    made |= {f"{VIM}/{path}": text for path, text in vim_files().items()}
    return {**made, **{f"{TEXTMATE}/{path}": text for path, text in textmate_files().items()}}


def install(prefix, programs):
    """Puts everything below this folder, with the programs that are at these paths."""
    os.makedirs(f"{prefix}/bin", exist_ok=True)
    for path in programs:
        place(path, f"{prefix}/bin/{os.path.basename(path)}")
    for path, text in texts().items():
        os.makedirs(os.path.dirname(f"{prefix}/{path}"), exist_ok=True)
        with open(f"{prefix}/{path}", "w", encoding="utf-8") as it:
            it.write(text)
    shutil.copytree(f"{TOP}/examples", f"{prefix}/{DOCUMENTS}/examples", dirs_exist_ok=True,
                    ignore=shutil.ignore_patterns("__pycache__"))
    shutil.copy(f"{TOP}/{MANUAL}", f"{prefix}/{DOCUMENTS}/MANUAL.md")


def place(program, path):
    """Copies a program to a place where the same one may be running."""
    shutil.copy2(program, f"{path}.new")
    os.replace(f"{path}.new", path)
