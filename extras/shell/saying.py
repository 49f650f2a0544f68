"""What is printed: replies with text, help from the pages, and colours at a terminal."""

import json
import os
import re
import sys

from shell.serving import TOP, Made

COMMANDS = {
    "PID": "the calls behind are those of process PID; at first of process 1",
    "[PID] CALL .. [-> NAME ..]": "makes a call, and names what it gives; $NAME is its number from then on",
    "help [CALL]": "this, or what a call takes, does and answers",
    "holders": "who holds what",
    "audit [PID [FD]]": "through whom each number came to its process",
    "pending": "the calls that wait",
    "cancel N": "takes back the call that waits as N",
    "names": "what is named",
    "undo": "takes back the last call: those before it are made again",
    "save FILE": "writes the calls that were made as a script, with their replies",
    "quit": "ends the session, as the end of input does",
}
COLOURS = {"fault": "31", "waits": "33", "dim": "2"}
OPTIONS = ("type", "error", "passcred", "peercred", "accept", "qlimit")
WORDS = {
    "Mode": ("r", "w", "rw"),
    "SockType": ("stream", "dgram", "seq"),
    "Whence": ("set", "cur", "end"),
    "SockOpt": OPTIONS,
}


def coloured(text: str, colour: str) -> str:
    """The text in a colour, at a terminal that may have one."""
    if not sys.stdout.isatty() or "NO_COLOR" in os.environ:
        return text
    return f"\033[{COLOURS[colour]}m{text}\033[0m"


def as_text(digits: str) -> str:
    """Bytes as text between quotation marks, where all of it can be printed; else their digits."""
    data = bytes.fromhex(digits)
    shown = {ord('"'): '\\"', ord("\\"): "\\\\", ord("\n"): "\\n", ord("\t"): "\\t"}
    if all(byte in shown or 0x20 <= byte < 0x7F for byte in data):
        return '"' + "".join(shown.get(byte, chr(byte)) for byte in data) + '"'
    return digits


def reply_text(reply: str) -> str:
    """A reply, with its bytes as text."""
    words = reply.split(" ")
    place = {"bytes": 1, "got": 2}.get(words[0])
    for at in range(len(words)):
        if at == place and re.fullmatch(r"([0-9a-f]{2})+", words[at]):
            words[at] = as_text(words[at])
    return " ".join(words)


def made_text(made: Made, asked: int | None) -> str:
    """A call that was made, and whether it had waited."""
    waited = "" if made.number in (None, asked) else coloured(f"  (waited as {made.number})", "dim")
    reply = reply_text(made.reply)
    if reply.startswith("err "):
        reply = coloured(reply, "fault")
    return f"{made.pid} {made.word} = {reply}{waited}"


def forms() -> dict[str, list[dict[str, str]]]:
    """The calls by their words, each with its fields."""
    calls = json.loads((TOP / "extras/calls.json").read_text())
    return {call["word"]: call["fields"] for call in calls if call["word"] != "off"}


def form_text(word: str) -> str:
    """A call as it is typed."""
    return " ".join([word, *(field["sign"] for field in forms()[word])])


def help_text() -> str:
    """All that may be typed."""
    lines = [f"{command:<28} {what}" for command, what in COMMANDS.items()]
    return "\n".join([*lines, "", "Calls: " + " ".join(forms())])


def help_of(word: str) -> str:
    """What the page of calls says of a call."""
    if word not in forms():
        return f"no call is named {word}"
    for section in (TOP / "docs/calls.md").read_text().split("\n### ")[1:]:
        title, _, text = section.partition("\n")
        if word in title.split(", "):
            text = re.split(r"\n## |\nLinux: ", text)[0]
            return re.sub(r"\[([^]]*)\]\([^)]*\)", r"\1", text).strip()
    return form_text(word)
