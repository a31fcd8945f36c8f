#!/usr/bin/env python3
"""A false solver: false.py FAULT FILE. It is clasp, but

  value    says the other value of one variable
  claim    claims a value that is 1 less in its `o` lines
  silent   leaves out the value of one variable
  shift    gives each variable's value to the next one
  row      is given the file without its last constraint, as if our writer had lost it
  bound    is given the file with the last constraint's bound 1 less, as if our writer had that wrong
"""
import re
import subprocess
import sys

CONSTRAINT = re.compile(r"^(.*(?:>=|=) )(-?[0-9]+);$")


def changed_file(fault, text):
    lines = text.split("\n")
    at = max((at for at, line in enumerate(lines) if CONSTRAINT.match(line)), default=None)
    if at is None or fault not in ("row", "bound"):
        return text
    if fault == "bound":
        sum_, bound = CONSTRAINT.match(lines[at]).groups()
        lines[at] = "%s%d;" % (sum_, int(bound) - 1)
    else:
        variables, constraints = re.findall("[0-9]+", lines[0])
        lines[0] = "* #variable= %s #constraint= %d" % (variables, int(constraints) - 1)
        del lines[at]
    return "\n".join(lines)


def changed_line(fault, line):
    if fault == "claim" and line.startswith("o "):
        return "o %d" % (int(line[2:]) - 1)
    if not line.startswith("v "):
        return line
    words = line.split()
    if fault == "value" and len(words) > 1:
        words[1] = words[1][1:] if words[1].startswith("-") else "-" + words[1]
    if fault == "silent" and len(words) > 2:
        del words[1]
    if fault == "shift":
        names = [word.lstrip("-") for word in words[1:]]
        signs = ["-" if word.startswith("-") else "" for word in words[1:]]
        words[1:] = [sign + name for sign, name in zip(signs[-1:] + signs[:-1], names)]
    return " ".join(words)


with open(sys.argv[2]) as file:
    given = changed_file(sys.argv[1], file.read())
said = subprocess.run(["clasp"], input=given, stdout=subprocess.PIPE, universal_newlines=True)
for printed in said.stdout.split("\n"):
    print(changed_line(sys.argv[1], printed))
sys.exit(said.returncode)
