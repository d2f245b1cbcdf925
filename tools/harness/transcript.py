"""What a script found, a line each, as it finds it."""
import time

# How many seconds something has to come about.
LIMIT = 30


class Transcript:
    """Whether anything came out otherwise, and the lines that say so."""
    failed = False

    def expect(self, what, is_so):
        print(f"{'ok' if is_so else 'FAILED'}: {what}", flush=True)
        self.failed |= not is_so
        return is_so

    def wait(self, holds, what, seconds=LIMIT):
        """As `expect`, once it holds, or its time is over."""
        return self.expect(what, holds_within(holds, seconds))


def holds_within(holds, seconds, pause=0.02):
    """Whether it comes to hold within this time."""
    end = time.monotonic() + seconds
    while not (is_so := holds()) and time.monotonic() < end:
        time.sleep(pause)
    return bool(is_so)
