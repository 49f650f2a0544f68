#!/usr/bin/env python3
"""Who holds what in a run on the layer, or through whom it came: uxrun's holders or audit in the program's own words."""
import argparse
import json
import subprocess
import sys
from pathlib import Path

sys.dont_write_bytecode = True
sys.path.insert(0, str(Path(__file__).resolve().parent))
from session import Session


OWN = 2                                        # processes of the layer that no program is


def options():
    found = argparse.ArgumentParser(description=__doc__)
    found.add_argument("what", choices=("holders", "audit"))
    found.add_argument("when", help="a number of calls, line:N or end")
    found.add_argument("script")
    found.add_argument("--uxrun", required=True)
    found.add_argument("--json", action="store_true")
    found.add_argument("--remove", action="store_true", help="the script, at the end")
    return found.parse_args()


def replay(chosen):
    """The values that uxrun prints behind the trace; and what it complains of."""
    command = [chosen.uxrun, "--json", f"--{chosen.what}", chosen.when, chosen.script]
    run = subprocess.run(command, capture_output=True, text=True)
    values = [json.loads(line) for line in run.stdout.split("\n") if line and '"kind":"call"' not in line]
    values = [value for value in values if value["kind"] != "process" or value["pid"] > OWN]
    return values, run.stderr.strip()


def plural(count, word):
    return f"{count} {word}{'' if count == 1 else 's'}"


class Holders:
    def __init__(self, session, values):
        self.session = session
        self.processes = [value for value in values if value["kind"] == "process"]
        self.descriptions = {value["description"]: value for value in values if value["kind"] == "description"}

    def title(self, description):
        """What a description is, in a few words."""
        value = self.descriptions.get(description)
        if value is None:
            return f"{description} (gone)"
        target = value["target"]
        if "object" in target:
            return self.session.files.get(target["object"], f"object {target['object']}")
        name = target["name"]
        return f"{target['type']} socket {description}" + (f" at {self.session.name(name)}" if name and name != "u" else "")

    def tie(self, target):
        if target.get("backlog") is not None:
            return f"listens, {len(target['pending'])} of {target['backlog']} waiting"
        if target.get("peer") is not None:
            return f"connected to {self.title(target['peer'])}"
        if target.get("association") is not None:
            return f"associated with {self.title(target['association'])}"
        return "idle"

    def references(self, description):
        """Who refers to it."""
        for process in self.processes:
            for one in process["numbers"]:
                if one["description"] == description:
                    yield f"{self.session.program(process['pid'])} {self.session.number(process['pid'], one['fd'])}"
        for at, value in self.descriptions.items():
            target = value["target"]
            yield from (f"a message to {self.title(at)}" for message in target.get("messages", ()) if description in message["passes"])
            if description in target.get("pending", ()):
                yield f"the backlog of {self.title(at)}"

    def lines(self):
        for description, value in self.descriptions.items():
            target = value["target"]
            tie = "" if "object" in target else f", {self.tie(target)}"
            yield f"{self.title(description)}{tie}: held by {', '.join(self.references(description)) or 'nobody'}"
            for message in target.get("messages", ()):
                passes = ", ".join(self.title(one) for one in message["passes"])
                yield f"  unread: {plural(message['n'], 'byte')}" + (f", which pass{'es' if message['n'] == 1 else ''} {passes}" if passes else "")


def link_text(session, link):
    how = {"made": "made by", "dup": "copied by", "got": "received by", "fork": "inherited at fork by"}[link["how"]]
    return f"{how} {session.program(link['pid'])} as {session.number(link['pid'], link['fd'], link['call'])}"


def audit_lines(session, values):
    for value in values:
        if value["kind"] == "held":
            chain = "; ".join(link_text(session, link) for link in value["chain"])
            yield f"{session.program(value['pid'])} {session.number(value['pid'], value['fd'])}: {chain}"


def named(session, value):
    """A value of uxrun's, with the program's words beside the layer's."""
    out = dict(value)
    if "pid" in value:
        out["program"] = session.program(value["pid"])
    if "fd" in value:
        out["number"] = session.number(value["pid"], value["fd"])
    if value["kind"] == "process":
        out["numbers"] = [dict(one, number=session.number(value["pid"], one["fd"])) for one in value["numbers"]]
    if "chain" in value:
        out["chain"] = [dict(link, program=session.program(link["pid"]), number=session.number(link["pid"], link["fd"], link["call"]))
                        for link in value["chain"]]
    return out


def main():
    chosen = options()
    session = Session(chosen.script)
    values, complaint = replay(chosen)
    if chosen.remove:
        Path(chosen.script).unlink()
    if chosen.json:
        lines = [json.dumps(named(session, value), sort_keys=True) for value in values]
    elif chosen.what == "holders":
        lines = Holders(session, values).lines()
    else:
        lines = audit_lines(session, values)
    for line in lines:
        print(line)
    if complaint:
        print(f"onlayer: {complaint}", file=sys.stderr)
    return 1 if complaint else 0


sys.exit(main())
