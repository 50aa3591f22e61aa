"""What expanders of readable case files share: reading blocks, and printing a part of each case.

A block ends at a blank line; its lines are comments, which begin with #, and then cases, most often one a
line. Lines that begin with ## are for the reader of the file only.
"""
import os
import sys

PARTS = ("--cases", "--answers", "--names")


def read(name, case, begin=lambda: None):
    """All cases of a file beside the scripts: line number and comment, then what CASE makes of the line.

    CASE makes nothing of a line that is only a part of the cases behind it; BEGIN is called before each block.
    """
    cases = []
    comment, asked = [], False
    begin()
    path = os.path.join(os.path.dirname(os.path.abspath(__file__)), name)
    with open(path, encoding="utf-8") as f:
        for number, line in enumerate(f, 1):
            line = line.rstrip("\n")
            try:
                if not line:
                    comment, asked = [], False
                    begin()
                elif line.startswith("##"):
                    pass
                elif line.startswith("#"):
                    if asked:
                        raise ValueError("a comment needs a blank line before it")
                    comment.append(line[1:].strip())
                else:
                    if not comment:
                        raise ValueError("a case needs a comment")
                    asked = True
                    made = case(line)
                    if made:
                        cases.append((number, " ".join(comment)) + made)
            except ValueError as e:
                sys.exit("%s:%d: %s" % (name, number, e))
    return cases


def tell(part, cases):
    """Print one of PARTS of each case, which is line number, comment, case line and answer line."""
    for number, comment, asked, wanted in cases:
        if part == "--cases":
            print(asked)
        elif part == "--answers":
            print(wanted)
        else:
            print("%d %s" % (number, comment))
