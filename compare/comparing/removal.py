"""Takes each rule out of the reference, and sees that the script which needs it isn't answered so by Linux any more."""
from __future__ import annotations

from pathlib import Path

from reference.rules import ALL_RULES, ORDINARY_USERS
from reference.script import read_script

from .lines import Bench, first_difference, reference_lines
from .programs import TOP, Stopped, Trouble, complain
from .session import Session
from .texts import RuleText, read_texts


def differs_without(bench: Bench, text: RuleText, there: list[str]) -> str:
    """The call at which Linux isn't as the reference says without the rule, or nothing."""
    script_lines = text.script.read_text("latin-1").split("\n")
    expected, _ = reference_lines(read_script(text.script), ALL_RULES - {text.rule}, bench.machine)
    found = first_difference("Linux", there, expected, script_lines)
    return "" if found is None else f"{found.row}: {found}"


def check_scripts(session: Session, scripts: list[Path]) -> dict[Path, list[str]]:
    """Linux's traces of the scripts, each of which agrees with the reference as long as no rule is taken out."""
    for outcome in session.compare(scripts):
        if outcome.differences or outcome.trouble:
            raise Trouble(f"{outcome.name} differs with all rules on: {outcome.trouble or outcome.differences[0]}")
    return dict(zip(scripts, session.each(scripts, session.bench.trace_there)))


def check_removals() -> int:
    """Prints for each rule where its script differs without it. It answers the status of the program."""
    texts, missed = read_texts(), []
    try:
        with Session() as session:
            traces = check_scripts(session, sorted({text.script for text in texts}))
            untold = ORDINARY_USERS if session.bench.machine.own_users else frozenset()
            for text in texts:
                if text.rule in untold:
                    print(f"{text.rule.value}: an ordinary user's replay alone needs it")
                    continue
                where = differs_without(session.bench, text, traces[text.script])
                if where:
                    print(f"{text.rule.value}: {text.script.relative_to(TOP)}:{where[:160]}")
                else:
                    missed.append(text.rule.value)
    except Trouble as trouble:
        complain(str(trouble))
        return 2
    except Stopped:
        return 1
    for name in missed:
        print(f"{name}: its script doesn't need it")
    print(f"{len(texts) - len(untold)} rules: {len(missed)} that no script needs")
    return 1 if missed or session.left else 0
