"""How each script of the repository takes its words, and how it ends: it has --help, refuses a word that it does not
know with a line of usage and status 2, and writes one line in the place of a traceback."""
import argparse
import os
import shutil
import signal
import subprocess
import sys

from repository import TOP


def parser(text):
    """What reads the words of a script whose help begins with this text."""
    how = {"formatter_class": argparse.RawDescriptionHelpFormatter, "allow_abbrev": False}
    return argparse.ArgumentParser(description=text, **how)


def take_no_words(text):
    """Reads the words of a script that takes none."""
    parser(text).parse_args()


def positive(word):
    """A number that counts something, as a word says it."""
    number = int(word)
    if number < 1:
        raise argparse.ArgumentTypeError("it has to be at least 1")
    return number


def one_of(names):
    """What reads a word that is one of these."""

    def read(word):
        if word not in names:
            raise argparse.ArgumentTypeError(f"{word} is none of {', '.join(names)}")
        return word

    return read


def stop(why):
    """Ends the script with a line on the error stream."""
    sys.exit(f"{os.path.basename(sys.argv[0])}: {why}")


def built_program(name="syndex", named=None):
    """The path of a program that ./build makes, or of the one that is named in its place: not the script of the
    same name, which first looks whether the program is current."""
    program = os.path.abspath(named or f"{TOP}/crates/{name}/out/{name}")
    if not os.access(program, os.X_OK) or os.path.isdir(program):
        option = "" if name == "syndex" else f" --program {name}"
        stop(f"{named} is no program" if named else f"the program {name} is not built: run ./build{option} first")
    return program


def need_command(name, what):
    """Ends the script if a command that it runs is not there."""
    if not shutil.which(name):
        stop(f"there is no command {name}: install {what}")


def compiled(room, source, *options):
    """The path of a program in C, compiled into this folder."""
    need_command("cc", "a C compiler")
    program = os.path.join(room, os.path.basename(source).removesuffix(".c"))
    subprocess.run(["cc", "-O2", "-o", program, source, *options], check=True)
    return program


def print_lines(lines):
    """Prints what is wrong, and returns the status that says whether anything is."""
    wrong = list(lines)
    print(*wrong, sep="\n", end="\n" if wrong else "")
    return 1 if wrong else 0


def run(main):
    """Runs the main function of a script, and ends the script with the status that it returns."""
    # Each line is there at once, for `tee` and `head` too.
    sys.stdout.reconfigure(line_buffering=True)
    try:
        status = main()
        sys.stdout.flush()
    except BrokenPipeError:
        # Nobody reads on, as after `| head`. What is still to be written goes nowhere.
        os.dup2(os.open(os.devnull, os.O_WRONLY), sys.stdout.fileno())
        status = 128 + signal.SIGPIPE
    except KeyboardInterrupt:
        status = 128 + signal.SIGINT
    except (OSError, subprocess.CalledProcessError) as why:
        stop(why)
    sys.exit(status)
