"""Where the modules are that the tests are of: to import this is to find them."""
import sys
from pathlib import Path

HERE = Path(__file__).resolve().parent
TOP = HERE.parent

sys.dont_write_bytecode = True
sys.path.insert(0, str(TOP))
