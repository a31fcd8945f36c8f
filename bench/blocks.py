#!/usr/bin/env python3
"""A block of value lines: blocks.py FORM TOKENS, FORM one of signed, shuffled (signed, in no order), x, string, spread (signed, in no order, over all variables that there may be). 1,000 tokens to a line."""
import random
import sys

form, tokens = sys.argv[1], int(sys.argv[2])
random.seed(7)
true = [random.random() < 0.5 for _ in range(tokens)]
if form == "string":
    print("v " + "".join("1" if one else "0" for one in true))
    sys.exit()
numbers = random.sample(range(1, 1_073_741_825), tokens) if form == "spread" else list(range(1, tokens + 1))
if form == "shuffled":
    random.shuffle(numbers)
name = "x%d" if form == "x" else "%d"
words = [("" if one else "-") + name % number for one, number in zip(true, numbers)]
for at in range(0, tokens, 1000):
    print("v " + " ".join(words[at:at + 1000]))
