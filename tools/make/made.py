"""made.py: what a script makes, written to its files or, where it is run with --check, held to them."""
import os

ROOT = os.path.normpath(os.path.join(os.path.dirname(os.path.abspath(__file__)), "..", ".."))


def text(*path):
    with open(os.path.join(ROOT, *path), encoding="utf-8") as file:
        return file.read()


def lines(each):
    """Lines as the bytes of a file."""
    return "".join(line + "\n" for line in each).encode("utf-8")


def differing(files):
    """The paths, from the root, whose file isn't there or doesn't hold these bytes."""
    for path, content in files.items():
        try:
            with open(os.path.join(ROOT, path), "rb") as file:
                if file.read() != content:
                    yield path
        except FileNotFoundError:
            yield path


def settle(files, arguments):
    """Writes the files, bytes by path from the root, or with --check for the one argument compares them; the exit status, and a line printed of each
    that differs."""
    if arguments not in ([], ["--check"]):
        print("%s: no argument, or --check" % " ".join(arguments))
        return 2
    if arguments:
        wrong = list(differing(files))
        for path in wrong:
            print("%s isn't what it should be" % path)
        return 1 if wrong else 0
    for path, content in files.items():
        os.makedirs(os.path.join(ROOT, os.path.dirname(path)), exist_ok=True)
        with open(os.path.join(ROOT, path), "wb") as file:
            file.write(content)
    return 0
