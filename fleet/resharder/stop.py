"""Why nothing is begun, and why a target ends, as one line."""


class Stop(Exception):
    """What keeps a job from being begun."""


class Refused(Exception):
    """A task's line: the program's refusal, or why it can't be run. It ends its target."""
