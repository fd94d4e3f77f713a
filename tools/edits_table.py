"""The table of edits that make an accepted manifest fail a question: the files *_edits.py fill it.

An edit takes dice and a manifest that was taken apart (tools/manifest_parts.py) and changes it in place; where there
is nothing for it to change it raises Nothing. Its name in the table is the function's, so that a run can say which
kinds of edits met their question.
"""
from collections import namedtuple

Edit = namedtuple("Edit", "question name change revision")
EDITS = []


def asks(*rows, revision=2):
    """The edit is for a question; or, with rows (question, word, ..), for several, each time with further arguments.

    The revision is the one under which the question is met: 1 stands for all but 2.
    """

    def fill(change):
        for row in rows:
            question, *words = (row,) if isinstance(row, int) else row
            name = " ".join([change.__name__.replace("_", " ")] + ["(%s)" % ", ".join(words)] * bool(words))
            EDITS.append(Edit(question, name, lambda dice, p, words=words: change(dice, p, *words), revision))
        return change

    return fill
