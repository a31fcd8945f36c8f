#!/usr/bin/env python3
"""What the program crates/vectors is run on, and what it must write: the cases of the models beside this file, which are written from 01 and 02 alone, and lines that are no case.

  cases.py DIR     writes DIR/stdin, a case to a line, and DIR/stdout, an answer to a line
"""
import sys

import evaluator_model
import normaliser_model
import numbers_model
import reader_model
import symbols_model
import values_model
import writer_model

MODELS = symbols_model, numbers_model, reader_model, writer_model, normaliser_model, evaluator_model, values_model

# Numbers that are not there, too many, parted by two spaces, not ended, with a sign, beyond 64 bits or their limit; columns with fewer entries or more than they say; more than a line has room for; no such letter.
NOT_CASES = [
    "", "s", "s ", "s 1", "s 1 ", "s 1 1 ", "s  1 1", "s 1  1", " s 1 1", "s 1 1 1", "s 1 x", "s -1 1", "s +1 1", "s 1 4294967296", "s 18446744073709551616 1", "s 99999999999999999999 1",
    "t", "t ", "t x", "t 1", "t 1 256", "t 1 97 ", "t 2 97", "t 1 97 98", "t 1 -1", "t 513" + " 97" * 513,
    "p 1 1 1", "p 9223372036854775808 1 1 0", "p - 1 1 0", "p 1 -1 1 0", "p 1 1 1 0\t",
    "v 0 1 118", "v 0 1 118 0", "v 0 1 118 1 0", "v 0 1 118 1 0 1", "v 0 1 118 3 0 1 0", "v 0 1 118 1 0 1 0 0", "v 0 1 118 9 0 0 0 0 0 0 0 0 0 0", "v -1 1 118 0 0",
    "r 6 1 1 1 1 1 1 1", "r 6 1 1 1 1 1 1 4294967296 0", "r 7 1 1 1 1 1 1 1 1 0", "r 6 1 1 1 1 1 256 1 0", "r 6 1 1 1 1 1 1 1 1",
    "w 1 5 1 0 1 1 1 0 1 1 1 0 1 1 513 0", "w 1 5 1 0 1 1 1 0 1 1 1 0 1 2 40 0", "w 1 5 1 0 1 1 1 0 1 1 1 4294967296 1 1 40 0", "w 1 5 1 0 1 1 1 0 1 1 1 0 1 1 40", "w 1 5 513 0 0 0 0 0 1 1 40 0",
    "n 0 0 0 0 0 0 5 5", "n 0 0 0 0 0 0 4 6", "n 0 0 0 0 0 4 5", "n 0 0 0 0 0 0 4", "n 1 256 0 0 0 0 0 4 5",
    "e 0 0 0 0 0 0 0 0", "e 0 0 0 0 0 0 -1 0 0", "e 0 0 0 0 0 0 0 1 0", "x 1 1", "rr 6 1 1 1 1 1 1 1 0", "a 0 0 0 0 0 0 0 0 0",
]


def main():
    found = [case for model in MODELS for case in model.cases()] + [(line, None) for line in NOT_CASES]
    with open(sys.argv[1] + "/stdin", "w") as given, open(sys.argv[1] + "/stdout", "w") as wanted:
        for number, (case, answer) in enumerate(found, 1):
            given.write(case + "\n")
            wanted.write("=" + (f" bad case {number}" if answer is None else answer) + "\n")
        # the last line is not ended
        given.write("s 1 1")
        wanted.write(f"= bad case {len(found) + 1}\n")


if __name__ == "__main__":
    main()
