"""How the scripts begin and end: with their usage where it is asked for or the words don't fit, and with a sentence where a file can't be
read or written, or the reader of their output goes away. Never with a traceback for what a person can cause.
"""
import os
import sys


def name():
    return os.path.basename(sys.argv[0])


def usage_of(module_doc):
    """Returns the lines of a script's documentation that show how it is called."""
    return "\n".join(line for line in module_doc.strip().split("\n") if line.startswith("    "))


def words(module_doc, *names):
    """Returns the script's words, one for each name. A name that ends in `..` stands for any number of them, and is last."""
    given = sys.argv[1:]
    open_ended = bool(names) and names[-1].endswith("..")
    least = len(names) - open_ended
    if len(given) < least or len(given) > least and not open_ended:
        print(f"{name()}: {least} words have to follow, and {len(given)} do:\n{usage_of(module_doc)}", file=sys.stderr)
        sys.exit(2)
    return given


def option(name_of_it, default=None):
    """Takes an option that stands before all other words out of the script's words, and returns its value."""
    if sys.argv[1:2] != [name_of_it] or len(sys.argv) < 3:
        return default
    value = sys.argv[2]
    del sys.argv[1:3]
    return value


def number(word, what):
    """Returns a word as a number, or ends with a sentence."""
    try:
        return int(word)
    except ValueError:
        sys.exit(f"{name()}: {what} is a number, and not '{word}'")


def shown(module_doc):
    print(module_doc.strip())
    return 0


def run(main, module_doc):
    """Runs a script and ends with its status."""
    try:
        status = shown(module_doc) if sys.argv[1:2] in (["-h"], ["--help"]) else main()
        sys.stdout.flush()
    except BrokenPipeError:
        # Whoever read the output has gone; nothing more is written at the end.
        os.dup2(os.open(os.devnull, os.O_WRONLY), sys.stdout.fileno())
        status = 1
    except KeyboardInterrupt:
        status = 130
    except UnicodeDecodeError:
        status = f"{name()}: a file isn't text"
    except OSError as fault:
        status = f"{name()}: {fault.filename}: {fault.strerror}"
    sys.exit(status)
