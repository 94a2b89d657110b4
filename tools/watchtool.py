#!/usr/bin/env python3
"""Runs the command watchtool where it stands: its text is python/bukzarn/watchtool.py."""
import signal
import sys
from pathlib import Path

if __name__ == "__main__":
    # Ctrl-C ends the tool at once and without a traceback, also while the modules are read.
    signal.signal(signal.SIGINT, signal.SIG_DFL)
    sys.path.insert(0, str(Path(__file__).resolve().parents[1] / "python"))
    from bukzarn.watchtool import main
    main()
