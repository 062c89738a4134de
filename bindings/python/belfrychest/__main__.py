"""The command line: python -m belfrychest."""
import signal
import sys

from ._command import main

# A closed pipe ends this as it ends other programs, without a word.
signal.signal(signal.SIGPIPE, signal.SIG_DFL)
sys.exit(main(sys.argv[1:]))
