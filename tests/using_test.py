#!/usr/bin/env python3
"""Runs the examples of documents: using_test.py PROGRAM DOCUMENT..

In a block of `console` a line `$ COMMAND` is run by a shell in a folder that the document has for itself, lines `> LINE`
behind it are its input, and the others are what it must write. A block of `python` must be a file of tests/, as it
stands there, and is run on a new store. Ends with 1 at the first difference.
"""
import os
import re
import subprocess
import sys
import tempfile

HERE = os.path.dirname(os.path.abspath(__file__))


def blocks(text, language):
    return re.findall(rf"^```{language}\n(.*?)^```$", text, re.MULTILINE | re.DOTALL)


def commands(block):
    """Each command with its input and what it must write."""
    found = []
    for line in block.splitlines():
        if line.startswith("$ "):
            found.append((line[2:], [], []))
        elif line.startswith("> "):
            found[-1][1].append(line[2:])
        else:
            found[-1][2].append(line)
    return found


def run_command(where, command, given, wanted, environment):
    done = subprocess.run(["bash", "-c", command], cwd=where, env=environment, stdout=subprocess.PIPE,
                          input="".join(line + "\n" for line in given).encode())
    found = done.stdout.decode().splitlines()
    if found != wanted:
        sys.exit("\n".join([f"$ {command}", "wrote:", *found, "and not:", *wanted]))


def run_python(block, program, where):
    names = [name for name in os.listdir(HERE) if name.endswith(".py")]
    same = [name for name in names if open(os.path.join(HERE, name), encoding="utf-8").read() == block]
    if not same:
        sys.exit("a block of python is no file of tests/")
    folder = tempfile.mkdtemp(dir=where)
    subprocess.run([program, "format", folder], check=True, stdout=subprocess.DEVNULL)
    done = subprocess.run([sys.executable, os.path.join(HERE, same[0]), program, folder], stdout=subprocess.PIPE)
    if (done.returncode, done.stdout) != (0, b"True 2\n"):
        sys.exit(f"{same[0]} ended with {done.returncode} and wrote {done.stdout}")


def main():
    program = os.path.abspath(sys.argv[1])
    for document in sys.argv[2:]:
        text = open(document, encoding="utf-8").read()
        with tempfile.TemporaryDirectory() as where:
            bin_folder = os.path.join(where, "bin")
            os.mkdir(bin_folder)
            os.symlink(program, os.path.join(bin_folder, "timestore"))
            environment = dict(os.environ, PATH=bin_folder + os.pathsep + os.environ["PATH"])
            found = [command for block in blocks(text, "console") for command in commands(block)]
            for command, given, wanted in found:
                run_command(where, command, given, wanted, environment)
            for block in blocks(text, "python"):
                run_python(block, program, where)
            print(f"{document}: {len(found)} commands as written")


if __name__ == "__main__":
    main()
