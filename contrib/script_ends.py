"""How the scripts of this folder end: no traceback reaches a user, but one line on standard error and a status."""
import os, sys


class Refusal(Exception):
    """What a script can't go on from; its text is the line."""


class Usage(Exception):
    """The words aren't those of the script."""


def ended(name, usage, main):
    """The status of `main` over the words of the command line: 1 and a line where it is refused, 2 and the usage where its words are others."""
    try:
        status = main(sys.argv[1:])
        sys.stdout.flush()
        return status
    except Usage:
        sys.stderr.write(f"usage: {usage}\n")
        return 2
    except BrokenPipeError:
        os.dup2(os.open(os.devnull, os.O_WRONLY), 1)
        return 1
    except KeyboardInterrupt:
        return 130
    except (Refusal, OSError) as fault:
        sys.stderr.write(f"{name}: {' '.join(str(fault).split())}\n")
    except RecursionError:
        sys.stderr.write(f"{name}: the input is nested too deep\n")
    return 1


def read_bytes(path):
    with open(path, "rb") as file:
        return file.read()


def number_of(word, least, most):
    """A number of a command line within its range."""
    if not (word.isascii() and word.isdigit() and len(word) < 20 and least <= int(word) <= most):
        raise Usage
    return int(word)


def options_of(words, known):
    """The values of the options `--NAME VALUE` among the words, over those that `known` begins with, and the words that are left."""
    values, left, words = dict(known), [], list(words)
    while words:
        word = words.pop(0)
        if not word.startswith("--"):
            left.append(word)
            continue
        name = word[2:].replace("-", "_")
        if name not in known:
            raise Usage
        if isinstance(known[name], bool):
            values[name] = True
        elif words:
            values[name] = words.pop(0)
        else:
            raise Usage
    return values, left
