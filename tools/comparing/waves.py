"""Value Change Dumps, as `busview waves` writes them: read to what each variable is, and what it becomes when."""
import collections


class NoDump(Exception):
    """A line of a text is none of a dump's."""


def read(text):
    """The scale, the kind and width of each variable, and by time and variable the values that it gets, in order."""
    scale, names, kinds, scope, time = None, {}, {}, [], 0
    values = collections.defaultdict(list)
    for line in text.splitlines():
        words = line.split()
        if line.startswith("$timescale"):
            scale = words[1:-1]
        elif line.startswith("$scope"):
            scope.append(words[2])
        elif line.startswith("$upscope"):
            scope.pop()
        elif line.startswith("$var"):
            name = ".".join(scope + [words[4]])
            names[words[3]], kinds[name] = name, (words[1], words[2])
        elif line.startswith("#"):
            time = int(line[1:])
        elif line.startswith("$") or not words:
            continue
        elif line[0] in "bs" and len(words) == 2 and words[1] in names:
            values[time, names[words[1]]].append(words[0][1:])
        elif line[0] in "01x" and line[1:] in names:
            values[time, names[line[1:]]].append(line[0])
        else:
            raise NoDump(line)
    return scale, kinds, dict(values)


def difference(wanted, found):
    """The first thing in which two dumps differ, or None."""
    try:
        one, other = read(wanted), read(found)
    except (NoDump, IndexError, ValueError) as fault:
        return f"a line that is none of a dump: {fault}"
    if one[0] != other[0]:
        return f"the scale is {other[0]}, wanted {one[0]}"
    for name in sorted(set(one[1]) | set(other[1])):
        if one[1].get(name) != other[1].get(name):
            return f"the variable {name} is {other[1].get(name)}, wanted {one[1].get(name)}"
    for time, name in sorted(set(one[2]) | set(other[2])):
        if one[2].get((time, name)) != other[2].get((time, name)):
            return f"at {time} {name} gets {other[2].get((time, name))}, wanted {one[2].get((time, name))}"
    return None
