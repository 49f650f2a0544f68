"""Where the modules are that strace/ has from the rest of the repository: to import this is to find them."""
import sys
from pathlib import Path

HERE = Path(__file__).resolve().parent
TOP = HERE.parent

for folder in (HERE, TOP / "shared", TOP / "compare"):
    if str(folder) not in sys.path:
        sys.path.append(str(folder))
