"""The script of a run, with the program's own names: its comments say which process, number, file and path stands behind which word."""
import re
from collections import defaultdict


class Session:
    def __init__(self, path):
        self.programs = {}                     # (pid, program) by the layer's process
        self.numbers = defaultdict(list)       # (calls so far, real number) by the layer's process and number
        self.files = {}                        # what an opaque object is
        self.paths = {}                        # by the layer's word
        self.failures = []
        self.calls = 0
        with open(path, encoding="utf-8", errors="replace") as lines:
            for line in lines:
                self.read_line(line.rstrip("\n"))

    def read_line(self, line):
        if line[:1].isdigit():
            self.calls += 1
            return
        word = line.split(" ")
        if word[:2] == ["#", "process"] and word[3] == "is":
            self.programs[int(word[4])] = (int(word[2]), " ".join(word[5:]))
        elif word[:2] == ["#", "process"] and word[3] == "executes":
            for layer, (pid, _) in self.programs.items():
                if pid == int(word[2]):
                    self.programs[layer] = (pid, " ".join(word[4:]))
        elif word[:2] == ["#", "object"]:
            self.files[int(word[2])] = " ".join(word[4:])
        elif word[:2] == ["#", "name"]:
            self.paths[word[2]] = " ".join(word[4:])
        elif word[:2] == ["#", "number"] and word[4] != "closed":
            self.numbers[int(word[4]), int(word[5])].append((self.calls, int(word[3])))

    def program(self, process):
        if process not in self.programs:
            return "onlayer itself"
        pid, name = self.programs[process]
        return f"{name} (pid {pid})"

    def number(self, process, number, call=None):
        """The program's number, as it was given last, or first after a call."""
        known = self.numbers.get((process, number), [])
        if call is None:
            return str(known[-1][1]) if known else f"({number} of the layer)"
        return next((str(real) for calls, real in known if calls > call), f"({number} of the layer)")

    def name(self, word):
        """A name as the program spells it."""
        if word in self.paths:
            return self.paths[word]
        text = re.sub(r"%([0-9a-f]{2})", lambda found: chr(int(found[1], 16)), word[2:])
        return "@" + text if word[:1] == "a" else text if word != "u" else "without a name"
