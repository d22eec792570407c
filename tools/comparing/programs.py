"""The programs and the simulations that answer inputs."""
import collections
import os
import subprocess

Answer = collections.namedtuple("Answer", "status output")
# A program that takes longer than this has no answer.
SECONDS = 60
BUSCONF_FORMS = ("run", "advice", "read", "read95", "maps", "rom", "make")
# What the simulations of bench/ know.
SIMULATED = ("delay", "times", "node", "plug", "pull", "reset", "turn", "hold", "settle", "config")


class Programs:
    """Where the programs are. `peers` is the folder of the simulations, or None."""

    def __init__(self, busconf, busview, peers=None):
        self.busconf, self.busview, self.peers = busconf, busview, peers

    def lacking(self):
        """The first file that isn't there."""
        files = [self.busconf, self.busview] + ([self.peers and os.path.join(self.peers, "plain")] if self.peers else [])
        return next((file for file in files if not os.path.exists(file)), None)

    def answer(self, words, data, room=None):
        """What the program of a form answers in a folder, or None where it doesn't end."""
        program = self.busconf if words and words[0] in BUSCONF_FORMS else self.busview
        return call([program, *words], data, room)

    def simulations(self, data):
        """What the simulations answer for a script, by their names; nothing where they don't know all of its lines."""
        verbs = {line.split()[0] for line in data.decode("latin-1").split("\n") if line.split()}
        if not self.peers or any(verb not in SIMULATED and not verb.startswith("#") for verb in verbs):
            return {}
        return {name: call([os.path.join(self.peers, name)], data) for name in ("plain", "events")}


def call(words, data, room=None):
    try:
        done = subprocess.run(words, input=data, cwd=room, stdout=subprocess.PIPE, stderr=subprocess.DEVNULL,
                              timeout=SECONDS, check=False)
    except subprocess.TimeoutExpired:
        return None
    return Answer(done.returncode, done.stdout)
