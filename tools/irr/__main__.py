"""`python3 -m irr`, for a checkout."""
import signal
import sys

# Until the tool is there, an interrupt just ends it.
if signal.getsignal(signal.SIGINT) == signal.default_int_handler:
    signal.signal(signal.SIGINT, signal.SIG_DFL)

from irr.main import main

sys.exit(main())
