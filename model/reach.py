"""What a run of the model has applied: a line `reached[WHAT] += 1` stands wherever a rule is applied.

The names are words such as 'fault TwoParents', 'command plug', 'key coins', 'row R0->R1' and 'report tree'. Whoever
runs many inputs reads here which rules they reached.
"""

from collections import Counter

reached = Counter()
