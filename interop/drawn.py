"""Drawn scripts: lines are printed through references of many kinds, which lead to printers of the server sooner or later.

What a printer answers is how many lines it has printed, so what vat_call is told says in which order its calls came: those through one
reference have to come in the order in which they were made, each once."""
import base64
import json
import random
import struct

from by_script import DONE, PRINTER, REGISTRY

STEPS = 400


class Draw:
    def __init__(self, seed):
        self.random = random.Random(seed)
        self.lines = ["a bootstrap boot", "a field registry boot -"]
        self.calls, self.turns, self.names = 1, 0, 0
        # how many Returns come, if nothing else does, and how many more once the promise is published
        self.returns, self.waiting = 1, 0
        # each reference by its name: the printer to which it leads, and that of a promise once it is published
        self.leads = {}
        self.printers = 0
        self.awaited = None
        # the calls through each reference, those whose outcome is told, and those that were finished before
        self.printed, self.cut = {}, set()
        for _ in range(STEPS):
            self.step()
        if self.awaited:
            self.publish()

    def name(self, kind):
        self.names += 1
        return f"{kind}{self.names}"

    def call(self, reference, interface, method, caps="-"):
        """Makes a call: gives its name and its number."""
        name = self.name("c")
        self.lines.append(f"a call {name} {reference} {interface} {method} {caps}")
        self.calls += 1
        if reference in self.leads and self.leads[reference] is None:
            self.waiting += 1
        else:
            self.returns += 1
        return name, self.calls - 1

    def asked(self, method, caps="-"):
        """A reference to what stands in the first field of what a method of the registry gives."""
        call, _ = self.call("registry", REGISTRY, method, caps)
        name = self.name("r")
        self.lines.append(f"a field {name} {call} 0")
        return name

    def settled(self):
        return [name for name, printer in self.leads.items() if printer is not None]

    def drawn(self):
        return self.random.choice(list(self.leads))

    def step(self):
        act = self.random.randrange(20)
        if not self.settled() or act == 0:
            self.leads[self.asked(1)] = self.printers
            self.printers += 1
        elif act == 1:
            name = self.random.choice(self.settled())
            self.leads[self.asked(6, name)] = self.leads[name]
        elif act == 2:
            name, clone = self.drawn(), self.name("r")
            self.lines.append(f"a clone {clone} {name}")
            self.leads[clone] = self.leads[name]
        elif act == 3 and not self.awaited:
            self.awaited = self.asked(7)
            self.leads[self.awaited] = None
        elif act == 4 and self.awaited:
            self.publish()
        elif act == 5 and len(self.settled()) > 2:
            name = self.random.choice(self.settled())
            del self.leads[name]
            self.lines.append(f"a drop {name}")
        elif act == 6:
            self.lines.append(f"a advance {self.drawn()}")
        elif act < 10:
            if self.turns < self.returns:
                self.turns += 1
                self.lines.append("a turn")
        else:
            self.print(self.drawn())

    def publish(self):
        name = self.random.choice(self.settled())
        self.call("registry", REGISTRY, 8, name)
        for other, printer in self.leads.items():
            if printer is None:
                self.leads[other] = self.leads[name]
        for _, calls in self.printed.items():
            if calls["printer"] is None:
                calls["printer"] = self.leads[name]
        self.awaited = None
        self.returns, self.waiting = self.returns + self.waiting, 0

    def print(self, name):
        call, number = self.call(name, PRINTER, 0)
        calls = self.printed.setdefault(name, {"printer": self.leads[name], "numbers": []})
        calls["numbers"].append(number)
        if self.random.randrange(30) == 0:
            self.cut.add(number)
            self.lines.append(f"a finish {call}")


def wrong_order(draw, told):
    """Where the printers' answers are not in the order of the calls, or nothing."""
    if told[-1:] not in ([DONE], ["done, something was left"]):
        return f"it ended with {told[-1:]}"
    answers = {}
    for line in told[:-1]:
        entry = json.loads(line)
        results = entry.get("outcome", {}).get("results")
        if entry["k"] != "ended" or not results:
            return f"it was told {line}"
        message = base64.b64decode(results["bytes"])
        answers[entry["call"]] = struct.unpack("<Q", message[-8:])[0]
    seen = {}
    for name, calls in draw.printed.items():
        last = 0
        for number in calls["numbers"]:
            if number in draw.cut and number not in answers:
                continue
            if number not in answers:
                return f"call {number}, through {name}, has not ended"
            line = answers[number]
            if line <= last or line in seen.setdefault(calls["printer"], set()):
                return f"call {number}, through {name}, came as line {line}, behind line {last}"
            seen[calls["printer"]].add(line)
            last = line
    return ""
