"""Lines that are not audited: they ask for a probe or for homing."""
from model.epochs import epochs_of
from model.lines import Refused, kept_of, words_of

PROBES = {("G", 38_200_000 + 100_000 * more) for more in range(4)}
HOMING = "$H"


def is_foreign(line):
    """Whether a line asks for homing or a probe."""
    kept = kept_of(line)
    try:
        return kept == HOMING or (len(kept) <= 79 and not kept.startswith("$") and not PROBES.isdisjoint(words_of(kept)))
    except Refused:
        return False


def foreign_in(job, alarm):
    """The number of the first line that is not audited, up to the one that raises an alarm, or None."""
    sents, _ = epochs_of(job)
    lines = [line for sent in sents for line in sent.lines][:alarm]
    return next((number for number, line in enumerate(lines, 1) if is_foreign(line)), None)
