"""An independent model of busconf: what docs/ and the standards say, in plain Python, one rule after the other.

    model.answer(words, data) -> (status, output)

gives what `busconf WORDS` or `busview WORDS` ends with and writes on standard output, if the bytes of `data` are its
standard input: `model.answer(["read"], capture)`, `model.answer(["make", "5", "1"], b"")`. It raises
`model.NotModelled` for a form that isn't here. A third argument, 'busconf' or 'busview', says whose forms the words may
be; without it they may be those of both.

    model.compared(words, status, output)

is an output without the lines that aren't modelled: the sentence on a script's fault, and what bytes look like.

    model.diffs.agrees(files, standard, status, output, as_json)

is whether `busview diff` may answer so; see there.

    model.names.named(file, status, output)

are the status and the output of `tree` or `dot` with the names of a file, by those without.

`model.reached` is a Counter of the rules that were applied since it was last cleared (`model.reached.clear()`), by
words such as 'command plug', 'fault TwoParents' or 'row T3->T1'. README.md beside this file says what the model is for,
and what it isn't.
"""

from . import diffs, names
from .forms import FORMS, NotModelled, answer, compared
from .reach import reached

__all__ = ["FORMS", "NotModelled", "answer", "compared", "diffs", "names", "reached"]
