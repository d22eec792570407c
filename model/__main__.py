"""`python3 -m model WORDS < INPUT`."""

import sys

from . import NotModelled, answer

try:
    status, output = answer(sys.argv[1:], sys.stdin.buffer.read)
except NotModelled as form:
    sys.exit(f"model: {form} isn't modelled")
sys.stdout.buffer.write(output)
sys.exit(status)
