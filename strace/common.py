"""What the programs share: their arguments, a log that is read and said, and faults in one line."""
from __future__ import annotations

import argparse
import gc
import sys
from typing import TYPE_CHECKING, Any, Callable

import paths  # noqa: F401
from judging.order import Search
from judging.rules import read_rules
from judging.run import Fault, Runner
from reading.calls import MOST_BYTES, read_log
from reading.head import Inherited
from reading.options import advice_on, has_numbers_for_names
from saying.world import Defect, World

if TYPE_CHECKING:
    from reading.calls import Log
    from argparse import Namespace

MOST_PASSES = 3


def parser(description: str | None, **options: Any):
    """The arguments that all programs which read a log have."""
    found = argparse.ArgumentParser(description=description, **options)
    found.add_argument("log", metavar="LOG", help="a log of strace -f, best taken by strace/record")
    found.add_argument("--json", action="store_true", help="print the report as JSON")
    found.add_argument("--uxrun", metavar="PATH", help="the program uxrun, where it isn't built in this repository")
    found.add_argument("--seconds", type=float, default=60, metavar="N",
                       help="how long to look for an order of calls that overlap (60)")
    found.add_argument("--megabytes", type=int, default=MOST_BYTES >> 20, metavar="N", help="read no larger log (200)")
    return found


def load(path: str, most: int = MOST_BYTES):
    """The log, or a fault that says in one line what is wrong."""
    try:
        log = read_log(path, most)
    except OSError as error:
        raise Fault(f"{path}: {error.strerror or error}") from error
    if not log.answered:
        what = f"; line {log.bad[0][0]} is '{log.bad[0][1]}'" if log.bad else ""
        raise Fault(f"{path}: no call of a socket, file or process with its answer in {log.lines} lines{what}: "
                    "take the log by strace/record LOG -- COMMAND")
    if has_numbers_for_names(log):
        raise Fault(f"{path}: numbers stand for names in it: take the log without strace's options -X raw and -X verbose")
    advice = advice_on(log, path)
    if advice:
        print(f"{path}: {advice}", file=sys.stderr)
    return log


def say(log: Log):
    """The log said in a script's words.

    What a first program had open, but the log doesn't tell, and what peers outside of the log sent, is found by further passes."""
    inherited = list(log.head.inherited)
    if not log.head.recorded:
        inherited = [Inherited(number, False, "a standard stream") for number in range(3)]
    learnt = None
    for _ in range(MOST_PASSES):
        # The collector is off, and the world of an earlier pass refers to itself.
        world = None
        gc.collect()
        world = World(log, inherited, learnt).run()
        wanted = {number: note for (_, number), note in world.gaps.missing.items() if number < 4096}
        known = {one.number for one in inherited}
        new = [Inherited(number, False, note) for number, note in wanted.items() if number not in known]
        if (log.head.recorded or not new) and (learnt is not None or not world.outside.count):
            break
        learnt = world.outside.learnt
        # What record wrote at the head is all that was open: another number's origin isn't known, which is told.
        inherited += [] if log.head.recorded else new
    return world


def replayed(options: Any, world: World):
    """The order in which the replies agree longest, with its verdicts; and what ran the scripts."""
    runner = Runner(options.uxrun)
    order = Search(world, runner, read_rules(), options.seconds).run()
    return order, runner


def main(program: str, run: Callable[[Namespace], int], arguments: Namespace):
    """Runs a program; a fault is told in one line, and no trace of Python is shown."""
    # What a log says is kept until the end: looking for garbage would find none, at up to a third of the time.
    gc.disable()
    try:
        return run(arguments)
    except BrokenPipeError:
        sys.stderr.close()
    except OSError as fault:
        print(f"{program}: {fault.filename or 'input or output'}: {fault.strerror}", file=sys.stderr)
    except (Fault, ValueError) as fault:
        print(f"{program}: {fault}", file=sys.stderr)
    except Defect as defect:
        print(f"{program}: a mistake of this program, please tell it: {defect}", file=sys.stderr)
    except MemoryError:
        print(f"{program}: the log needs more memory than there is: record a shorter run", file=sys.stderr)
    except KeyboardInterrupt:
        print(f"{program}: interrupted", file=sys.stderr)
    return 2
