"""Where the programs uxrun and uxserve are, for those of bench/, compare/, onlayer/ and strace/."""
import os
from pathlib import Path

CRATES = Path(__file__).resolve().parent.parent / "crates"


def find_program(name, fault, given=None, named_by=None):
    """The program given, that of the variable of its name in capitals, or the one that is built in this repository.

    Where there is none, an exception of the class `fault` says so, and how a program may be named."""
    variable = name.upper()
    path = Path(given or os.environ.get(variable) or CRATES / name / "out" / name)
    if path.is_file() and os.access(path, os.X_OK):
        return path.resolve()
    command = f"cd crates/{name} && rt run -- - < stdin" if name == "uxrun" else f"cd crates/{name} && rt run < stdin"
    raise fault(f"there is no {name} at {path}: build it (`{command}`), or name one by {named_by or f'the variable {variable}'}")


def find_uxrun(fault, given=None, named_by=None):
    return find_program("uxrun", fault, given, named_by)


def find_uxserve(fault, given=None, named_by=None):
    return find_program("uxserve", fault, given, named_by)
