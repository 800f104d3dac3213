"""What ends a start, with the exit status that docs/tokend-start.1 lists."""
FAILED, HELD, NO_LOG, NO_NUMBER, SETTINGS, AHEAD = 1, 3, 4, 5, 6, 7


class Stop(Exception):
    """Ends the start with a status and a message."""

    def __init__(self, status, message):
        super().__init__(message)
        self.status = status


def no_log(path, why):
    return Stop(NO_LOG, "%s is no log (%s): tokend-start --whole says how much of it is good"
                % (path, why))
