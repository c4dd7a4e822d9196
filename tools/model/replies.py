"""A console, reply by reply: status reports may stand anywhere behind the banner."""
from model.machine import BANNER as BANNER_LINES
from model.machine import LOST
from model.reports import REPORT

BANNER = "\r\n".join(BANNER_LINES)
FARTHEST = 10**12  # a place in thousandths of a mm is that far from zero at most
BYTE, WIDE = 2**8, 2**64


def is_report(text):
    """Whether a line is a report that a board can give."""
    found = REPORT.fullmatch(text)
    if not found:
        return False
    kind, numbers = found[2], [int(number.replace(".", "")) if number else 0 for number in found.groups()[2:]]
    place, room, speeds, offset, overrides = numbers[:3], numbers[3:5], numbers[5:7], numbers[7:10], numbers[10:]
    if kind == "W":
        place = map(sum, zip(place, offset))
    return (all(abs(length) <= FARTHEST for length in [*place, *offset]) and all(part < BYTE for part in [*room, *overrides])
            and all(speed < WIDE for speed in speeds))


class Console:
    """The text of a console."""

    def __init__(self, text):
        self.text, self.skipped = text.decode("latin-1"), {}

    @property
    def has_banner(self):
        return self.text.startswith(f"{BANNER}\r\n")

    def behind(self, at, replies):
        """Where it goes on behind these replies, and the reports among them and behind; or None where it tells others."""
        for reply in replies:
            if not self.text.startswith(f"{reply}\r\n", at):
                return None
            at = self.skip(at + len(reply) + 2)
        return at

    def skip(self, at):
        """Where it goes on behind reports."""
        if at not in self.skipped:
            self.skipped[at] = self.skip_all(at)
        return self.skipped[at]

    def skip_all(self, at):
        while self.text.startswith("<", at):
            end = self.text.find("\r\n", at)
            if end < 0 or not is_report(self.text[at:end]):
                break
            at = end + 2
        return at

    def goes_on_anew(self, at):
        """Whether it goes on with what is told at a reset."""
        return self.text.startswith((f"{LOST}\r\n", f"{BANNER}\r\n"), at)

    def is_at_end(self, at):
        return at == len(self.text)
