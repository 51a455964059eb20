"""Follows a page word by word: runs its commands, and compares what they print.

  follow.py PAGE

Each block of PAGE whose fence says `console installed` is followed, in the present folder. A line
`$ COMMAND` is a command of bash, and the lines below it are what it prints, on standard output and
standard error. In these lines `..` stands for any text. The status is 0 if all is as it stands
there, else 1. The tool fits in one file, since it is copied to where nothing else is.
"""

import re
import subprocess
import sys

BLOCK = re.compile(r"^```console installed\n(.*?)^```$", re.M | re.S)


def steps_of(page):
    """Returns each command of a page with the lines that it has to print."""
    steps = []
    for line in "".join(BLOCK.findall(page)).splitlines():
        if line.startswith("$ "):
            steps.append((line[2:], []))
        else:
            steps[-1][1].append(line)
    return steps


def fits(expected, printed):
    """Returns whether what was printed is what is expected, in which `..` is any text."""
    form = "\n".join(re.escape(it).replace(r"\.\.", ".*") for it in expected)
    return re.fullmatch(form, printed.rstrip("\n")) is not None


def main(path):
    """Follows a page, and returns the exit status."""
    with open(path, encoding="utf-8") as file:
        steps = steps_of(file.read())
    for command, expected in steps:
        ran = subprocess.run(["bash", "-c", command], stdin=subprocess.DEVNULL,
                             stdout=subprocess.PIPE, stderr=subprocess.STDOUT, text=True)
        print(f"$ {command}\n{ran.stdout}", end="")
        if not fits(expected, ran.stdout):
            print("follow: this must be printed:", *expected, sep="\n")
            return 1
    return 0 if steps else 1


if __name__ == "__main__":
    sys.exit(main(*sys.argv[1:]))
