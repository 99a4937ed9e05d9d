"""Signals, for tests that send them."""

import signal


def heed_signals():
    """Takes back what a shell or nohup made this process ignore, which a shell script could not heed then."""
    for number in (signal.SIGHUP, signal.SIGINT, signal.SIGTERM):
        signal.signal(number, signal.SIG_DFL)
