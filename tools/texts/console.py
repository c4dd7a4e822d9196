"""What a run wrote to its console: the answers to the lines of the job, in order. The texts are those of docs/STREAMING.md,
and the meanings of the numbers those of docs/DIALECT.md."""
import re

from texts.steps import BadText

MEANINGS = {
    1: "a word does not begin with a letter",
    2: "no number comes after a letter, after $, or after the = of a setting",
    3: "a $ line that is not served, or a setting or its value out of range",
    4: "a negative value that may not be negative",
    8: "served only while the machine stands (settings, $$, $#, jogs), and no jog while it is locked",
    9: "G-code is not served while the machine jogs, or is locked",
    11: "more than 79 characters, without blanks and comments",
    15: "the target of a jog is outside the travel",
    16: "a code that no jog takes",
    20: "a code or a letter that is not served",
    21: "two codes of one modal group",
    22: "a move at the feed, and no feed is set",
    23: "a code that has to be whole has a fraction",
    24: "two codes that take the axis words",
    25: "a letter comes twice",
    26: "an axis word is missing",
    27: "a line number over 10,000,000",
    28: "G4 without P, or G10 with neither P nor L",
    29: "G10 with P over 6",
    30: "G53 while the motion mode is G80",
    31: "an axis word while the motion mode is G80",
    33: "a target or an offset beyond 10,000 mm",
    36: "a word that no code of the line takes",
    38: "a tool number over 255",
}
ALARMS = {2: "a target is outside the travel, with soft limits on: the run ends"}
RESET_ALARM = (True, 3)
ANSWER = re.compile(rb"(error|ALARM):([0-9]{1,3})")
OTHER = re.compile(rb"Grbl .*|\[.*\]|<.*>|\$[0-9]+=[0-9.]+|", re.DOTALL)
ENDS = b"\n"


class Console:
    """Of each line of the job, by its number, how it was answered: `refused` has the errors, `alarm` the line that raised one,
    `dropped` those that a reset has dropped, `answered` counts the answers, and `reached` is the last line that has one or was
    dropped. What else is told is no answer."""

    def __init__(self, stream=()):
        self.refused, self.alarm, self.dropped, self.answered, self.reached = {}, None, set(), 0, 0
        self.epochs, banners = [[]], 0  # of each epoch the answers: None for `ok`, else whether it is an alarm, and its number
        for number, line in enumerate(stream, 1):
            text = line.strip()
            answer = ANSWER.fullmatch(text)
            if text == b"ok":
                self.epochs[-1].append(None)
            elif answer:
                self.take(answer[1] == b"ALARM", int(answer[2]))
            elif text.startswith(b"Grbl "):
                banners += 1
                self.epochs += [[]] if banners > 1 else []
            elif not OTHER.fullmatch(text) and line.endswith(ENDS):
                raise BadText(number, f"no text of a console: {text[:40].decode('ascii', 'replace')!r}")

    def take(self, is_alarm, number):
        """Takes an answer that is no `ok`; the alarm of a reset answers no line."""
        if (is_alarm, number) != RESET_ALARM:
            self.epochs[-1].append((is_alarm, number))

    def align(self, begins):
        """The answers of each epoch are those of the lines from one of these on: of the first, and of each that has a reset."""
        for begin, answers, end in zip(begins, self.epochs, [*begins[1 : len(self.epochs)], 0]):
            self.answered += len(answers)
            self.reached = max(begin + len(answers), end) - 1
            self.dropped.update(range(begin + len(answers), end))
            told = [(line, *answer) for line, answer in enumerate(answers, begin) if answer]
            self.refused.update((line, number) for line, is_alarm, number in told if not is_alarm)
            self.alarm = next(((line, number) for line, is_alarm, number in told if is_alarm), None)

    def is_done(self, line):
        """Whether a line was accepted, as far as is told."""
        return line not in self.refused and line not in self.dropped and not (self.alarm and line >= self.alarm[0])


def meaning_of(number):
    """What the number of an error means."""
    return MEANINGS.get(number, "no error of this dialect")


def alarm_meaning(number):
    """What the number of an alarm means."""
    return ALARMS.get(number, "no alarm of this dialect")
