"""What the scripts share that try a built program: clients of a socket (`clients`), agents in home folders (`agents`), and a transcript (`transcript`). It stands on Python's own
library alone."""
import sys

# Nothing is left in the clone.
sys.dont_write_bytecode = True
