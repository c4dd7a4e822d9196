"""What a line of a job says: its words and its comments; and how numbers and lines are written."""
import re
from dataclasses import dataclass
from functools import cache, cached_property

MILLION = 1_000_000  # a value is kept in millionths of its unit; more decimals are dropped, as the dialect does
LARGEST = 1_000_000_000  # no value reaches this
LONGEST = 79  # so many kept characters at most

COMMENT = re.compile(r"\([^)]*\)?|;.*")
DROPPED = re.compile(r"[\x00-\x20/]+")
REALTIME = re.compile(r"[\x18?!~\x80-\xff]")
WORD = re.compile(r"([A-Z])([+-]?(?:[0-9]+\.?[0-9]*|\.[0-9]+))")
FLOW = re.compile(r"(?:N[0-9.]+)?O(?:<|[0-9]+(?:SUB|ENDSUB|CALL|IF|ELSE|ENDIF|WHILE|ENDWHILE|DO|REPEAT|ENDREPEAT|RETURN|BREAK|CONTINUE))")


class Refused(Exception):
    """A line has no meaning in the dialect; the text is the reason."""


class Unfit(Refused):
    """A line is refused by what the lines before it leave: its place and the modes. Behind a refused line these are not known."""


@dataclass(frozen=True)
class Word:
    """A letter, its value in millionths, and the number as it was spelled."""

    letter: str
    value: int
    number: str

    @property
    def text(self):
        return self.letter + self.number

    @cached_property
    def code(self):
        """The name of a G or M code, without zeros that say nothing: G01 is G1."""
        return self.letter + number_text(self.value)


@dataclass(frozen=True)
class SourceLine:
    """A line cut into what is kept of it, its comments, each closed, and its realtime bytes. The kept characters are capitals.
    `has_nested` says that a comment had brackets inside, which were exchanged."""

    kept: str
    comments: tuple
    realtime: str
    has_nested: bool = False


def number_text(millionths):
    """A number with as few decimals as it needs, six at most."""
    whole, part = divmod(abs(millionths), MILLION)
    decimals = f".{part:06}".rstrip("0").rstrip(".")
    return f"{'-' if millionths < 0 else ''}{whole}{decimals}"


def word(letter, millionths):
    """A word of a value."""
    return Word(letter, millionths, number_text(millionths))


@cache
def code_word(code):
    """The word of a code's name."""
    return read_words(code)[0]


def cut_line(text):
    """Cuts a line as the dialect does. A bracket that is left behind a comment shows that comments are nested."""
    line = separated(text, COMMENT.findall(text), COMMENT.sub("", text))
    if ")" not in line.kept:
        return line
    comments, rest = nested_comments(text)
    return separated(text, comments, rest, has_nested=True)


def separated(text, comments, rest, has_nested=False):
    realtime = "".join(REALTIME.findall(rest))
    kept = DROPPED.sub("", REALTIME.sub("", rest)).upper()
    return SourceLine(kept, tuple(map(closed, comments)), realtime, has_nested)


def closed(comment):
    """A comment that ends where it ends in its line."""
    return comment if comment[0] == ";" or comment.endswith(")") else comment + ")"


def nested_comments(text):
    """The comments of a line whose brackets are nested, with square ones inside, and the rest of the line."""
    comments, rest, inside, depth = [], [], [], 0
    for place, character in enumerate(text):
        if depth == 0 and character == ";":
            comments.append(text[place:])
            break
        if depth == 0 and character != "(":
            rest.append(character)
            continue
        depth += {"(": 1, ")": -1}.get(character, 0)
        inside.append(character)
        if depth == 0:
            comments.append(f"({square(inside[1:-1])})")
            inside = []
    return comments + ([f"({square(inside[1:])})"] if inside else []), "".join(rest)


def square(characters):
    return "".join(characters).replace("(", "[").replace(")", "]")


def read_words(kept):
    """The words of a line of kept characters. Raises Refused where there is something else."""
    if FLOW.match(kept):
        raise Refused("a subroutine, a loop or a condition (O word)")
    words, place = [], 0
    while place < len(kept):
        found = WORD.match(kept, place)
        if not found:
            raise Refused(reason_at(kept, place))
        words.append(Word(found[1], value_of(found[2]), found[2]))
        place = found.end()
    return words


def reason_at(kept, place):
    """Why there is no word at a place."""
    if "#" in kept[place:]:
        return "a parameter (#)"
    if "[" in kept[place:]:
        return "an expression ([ ])"
    if "A" <= kept[place] <= "Z":
        return f"no number after {kept[place]}"
    return f"{kept[place]!r} begins no word"


def value_of(number):
    """The value of a number in millionths; what is finer is dropped."""
    whole, _, part = number.lstrip("+-").partition(".")
    value = int(whole or "0") * MILLION + int((part + "000000")[:6])
    if value >= LARGEST * MILLION:
        raise Refused(f"{number} is too large")
    return -value if number[0] == "-" else value


def written(words, comments=(), realtime=""):
    """The text of a line. A comment that runs to the line's end comes last."""
    parts = [each.text for each in words] + sorted(comments, key=lambda comment: comment[0] == ";")
    return realtime + " ".join(parts)


def kept_length(words):
    """How many characters of a line of these words are kept."""
    return sum(len(each.text) for each in words)


def shortened(words):
    """The same words with numbers that say the same in fewer characters."""
    return [word(each.letter, each.value) for each in words]
