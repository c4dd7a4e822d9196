"""Random jobs, as bytes: lines of every kind, right and wrong, with moves, marks, settings and ends of programs anywhere
between them."""
from model.lines import AXES, GROUP_OF
from model.machine import SETTINGS

NUMBERS = ("1", "0", "2", "-1", "3.5", "0.25", "-.5", "1.2345678", "+2", "00.5", "20", "6", "7.9", "-0.0000001")
ODD_NUMBERS = ("", ".", "-", "1e3", "999999999.9999999", "1000000000", "10001", "-10000.001", "255.5", "256", "10000001")
CODES = list(GROUP_OF) + ["G2", "G43.1", "G61.1", "G1.25", "G28.25", "G10.5", "M6", "M3.5", "M-1", "G-1", "G01", "M05"]
PHRASES = """
    G4P0.5 G4P2.0009 G10L2P1X1 G10L20P2Y-1Z2 G10L20X1 G10L2X1R1 G10L2P7X0 G10P1X1 G10L2.5X1
    G28X1 G28 G30Y1Z1 G28.1 G30.1X2 G92X1Y2 G92.1 G53X1 G53G80 G55X1 G91X1 G90X2Y3
    F321X-10001S77M4 G55G91X20000F50 T5M8G18Y10001 G92X10001F60 G10L2P2Y-10001S9M3 G53G90Z10001 G20G91X400F7
    G20X0.5 G21X3 G1F200 M3S100 M4 S250 M5 M8 M2 M30S9 T256 T255.5 N10000001
""".split()
PLACES = """
    G28 G28X0 G30 G30Y0.01 G28.1 G30.1 G53G0X0.1Y0 G53X0.02 G92X0 G92X0.1Y-0.2 G92.1 G10L2P1X0.05 G10L2P2Y-0.1Z0.02
    G10L20P0X0 G10L20P3X0.01Y0.02 G54 G55 G56 G90 G91 G20 G21 G20X0.001 G91Y-0.03 G80 G0
""".split()
FLOW = ("M0", "M0", "M1", "M2", "M30", "M2S100", "M30X0.01", "M0Y0.02", "M3S500M2", "M8M30", "G4P0.01M2")
SYSTEM_LINES = ("$$", "$#", "$G", "$X", "$", "$H", "$RST=*", "$Z", "$1.5=1", "$-1=5", "$+10=3", "$5=1", "$20=0.9")
# What leaves the travel, or has an error of its own, or is no move of G-code; and what turns soft limits on and off.
BEYOND = """
    G53G0X0.004 G53G0Y0.0001 G53G0Z1M30 G53G1X-5Y1F100 G91G0Y-1000 G91X1000M3S100 G4P0.1G53X2 M0G53G0Z0.5 G53G0X1F-1 G53G0X1I2
    G28G91X1000 G30Y3000 G28 G30 G0G91Z900G92.1 G53G0X10001 G53X0.0000001 G53X0Y0Z0 G92X-5000 G10L20P1X3000 G10L2P1X400 G28.1
    $J=G53X0.004F99 $J=G91X1000F99 $J=G53Y0.0001F9 $J=G53X-10000F9 $J=G91Z900F500 $J=G53X1 $J=G53X0Y0Z0F500
""".split()
SWITCHES = ("$20=1", "$20=1", "$20=255", "$20=1.9", "$20=0", "$20=0", "$20=256", "$20=-1", "$20=0.5")
# Jogs, most of them refused, and what stands among jogs.
ODD_JOGS = """
    $J $JX1F9 $J= $J=1 $J=X $J=X1 $J=X1F0 $J=X1F-1 $J=F10 $J=G1X1F10 $J=M3X1F10 $J=G54X1F10 $J=G92X1F10 $J=G10L2P1X1F10
    $J=X1F10S1 $J=X1F10K2 $J=X10001F10 $J=N10000001X1F9 $J=X1X2F9 $J=G90G91X1F9 $J=G2X1F9 $J=G1.5X1F9 $J=A1 $J=G28X1F1
    $J=T256X1 $J=X0F0.0000001 $J=G53G90G21X0Y0Z0F500N10 $J=G20X0.004F3 $J=G91G20Y-0.0005F0.000001 $J=G91X0F1 $J=X0Y0F99.5
""".split()
AMONG_JOGS = ("$$", "$#", "$G", "$X", "$10=1", "$110=700", "$120=20", "$100=200", "", "G4P0", "M0", "G92X0", "G55", "M2", "?")
CANCELS = ("\x85", "\x85", "\x85", "!", "!", "\x85?", "!?", "?\x85", "\x85\x85", "!\x85", "\x85~", "!~", "(\x85)", "\x85$J=G91X1F500",
           "\x85G0X0", "!G91X0.1", "\x85G92X0", "\x85$#")
REALTIME = ("?", "!", "~", "\x85", "\x90", "\xa0", "\xff", "?!~", "\x84\x9d")
HANDS = ("!", "!", "!~", "~", "~!", "\x90", "\x91", "\x91\x91\x91", "\x92", "\x92\x92\x92", "\x93", "\x94", "\x95",
         "\x96", "\x97", "\x99\x9a", "\x9a", "\x9b", "\x9c\x9d", "!\x92~", "!?", "!?", "!?? ?", "?!?~?", "\x9a?")
RESETS = ("\x18", "\x18", "\x18", "!\x18", "~\x18", "?\x18", "\x92\x18", "(\x18)", "\x18\x18", "??\x18?!~")
QUERIES = ("?", "?", "?", "?", "?", "??", "???", "(?)", "?(??)", "? ?", ";?", "?~")
# What reports tell of, as no default is. Overrides are in `HANDS`, and so is a hold, which is told in its own line alone.
TOLD = """
    $10=0 $10=1 $10=2 $10=3 G92X0.1Y-0.2 G10L2P1X0.05Z-1.234 G10L2P2Y-0.1Z0.02 G10L20P0X0.0004Y-0.0005 G55 G54 G92.1
    M3S12345 M4S999 M5 S777 G4P0 M2 M0
""".split()
JUNK = ("(a comment ? ! ~)", "(cut", " ", "\t", "/", "\r", ";the rest", "\0", "\xc3\xa9", "( ; )", ";(", ")") + REALTIME


class JobMaker:
    """Makes the lines of one job. Whatever it says of the place is only a guess: where a line is refused, or counts from
    elsewhere, the machine goes elsewhere."""

    KINDS = ("move", "words", "setting", "mark", "place", "flow", "feed", "system", "empty", "jogs")
    # How often each kind comes: in jobs for the motion, for the dialect, for both, and for an operator.
    MIXES = ((85, 0, 5, 4, 0, 1, 5, 0, 0, 1), (2, 78, 9, 0, 0, 1, 1, 6, 3, 2), (50, 12, 4, 6, 10, 5, 6, 3, 4, 2),
             (30, 0, 2, 4, 4, 2, 2, 2, 2, 15))

    def __init__(self, chance):
        self.chance, self.lines = chance, []
        self.place, self.rapid, self.flood = [0, 0, 0], True, False
        self.relative = self.in_inches = False
        self.scale = chance.choice((20, 200, 2000))  # the longest way of a move along an axis, in µm
        self.cancels = chance.random() < 0.5
        self.travel, self.zero = 0, 0  # of each axis in µm, where soft limits are on; and where the zero of the work is
        self.heading = None  # where the job goes nearly straight on, in short moves: the way of each, in µm

    def make(self):
        chance = self.chance
        if chance.random() < 0.01:
            return chance.choice((b"", b"\n", b"\r", b" ", b"?", b"\n\n", b"("))
        mix, has_hand, has_query = chance.choice(self.MIXES), chance.random() < 0.2, chance.random() < 1 / 3
        has_reset = chance.random() < 0.15
        if mix is self.MIXES[1]:
            # Few steps per mm, so that the moves of all those numbers are short.
            self.lines += [f"$10{axis}={chance.choice((2, 4, 5.5))}" for axis in range(3)]
        if chance.random() < 0.9:
            self.say_feed()
        if chance.random() < (0.03 if mix is self.MIXES[1] else 0.25):
            self.limit()
        for kind in chance.choices(self.KINDS, mix, k=chance.randint(1, 80)):
            if mix is not self.MIXES[1] and chance.random() < 0.05:
                self.heading = chance.choice((None, [chance.randint(-40, 40) or 4 for _ in range(3)]))
            getattr(self, f"say_{kind}")()
            self.guess_modes(self.lines[-1])
            if mix is not self.MIXES[0] and chance.random() < 0.15:
                self.spoil()
            if has_query:
                self.ask()
            if self.travel and chance.random() < 0.03:
                self.leave()
            if has_hand and chance.random() < 0.1:
                self.put(chance.choice(HANDS))
            if has_reset and chance.random() < 0.04:
                self.reset()
        if has_reset:
            self.reset()
        if chance.random() < 0.7:
            self.lines += ["$#", "$G", "$$"]
        end = "\r\n" if chance.random() < 0.15 else "\n"
        text = end.join(self.lines) + (end if chance.random() < 0.7 else "")
        return text.encode("latin-1")

    def guess_modes(self, line):
        if line.startswith("$"):
            return
        self.relative = "G91" in line.replace("G91.1", "") or (self.relative and "G90" not in line and "M2" not in line)
        self.in_inches = "G20" in line or (self.in_inches and "G21" not in line)

    def put(self, text):
        """Puts a text into the last line."""
        line, at = self.lines[-1], self.chance.randint(0, len(self.lines[-1]))
        self.lines[-1] = line[:at] + text + line[at:]

    def spoil(self):
        """Puts what comes off a line, or cuts it, into the last line."""
        self.put(self.chance.choice(JUNK))
        if self.chance.random() < 0.2:
            self.lines[-1] = self.lines[-1].lower()

    def ask(self):
        """Now and then asks for a report in the last line, or changes what a report tells."""
        if self.chance.random() < 0.1:
            self.lines.append(self.chance.choice(TOLD))
            self.guess_modes(self.lines[-1])
        if self.chance.random() < 0.25:
            self.put(self.chance.choice(QUERIES))

    def limit(self):
        """Turns soft limits on, and goes to the middle of the travel, or makes that the zero of the work."""
        self.travel = max(1_000, self.scale * self.chance.choice((2, 5, 20)))
        travels = [f"$13{axis}={self.travel / 1000}" for axis in range(3)]
        self.lines += self.chance.sample([*travels, "$20=1"], 4)
        middle = "".join(f"{axis}{-self.travel / 2000}" for axis in AXES)
        if self.chance.random() < 0.5:
            self.place = [-self.travel // 2] * 3
            self.lines.append(f"G53G0{middle}")
        else:
            self.zero = -self.travel // 2
            self.lines += [f"G10L2P1{middle}", "G0X0Y0Z0"]
        if self.chance.random() < 0.3:
            self.lines.append("G4P0")

    def leave(self):
        """A line that may leave the travel: one by itself, a hole that is drilled, or too far up after it; or a switch."""
        kind = self.chance.random()
        if kind < 0.6:
            self.lines.append(self.chance.choice(BEYOND))
        elif kind < 0.85:
            down, up = (self.chance.randint(1, self.scale) for _ in range(2))
            for _ in range(self.chance.choice((1, 3, 8))):
                self.lines += [f"G91G0X{-up / 1000}", f"G1Z{-down / 1000}F300", f"G0Z{(down + up) / 1000}"]
        else:
            self.lines.append(self.chance.choice(SWITCHES))
        self.guess_modes(self.lines[-1] if kind < 0.6 else "G91" if kind < 0.85 else "")

    def reset(self):
        """Puts a reset into the last line, or into a line behind it."""
        if self.chance.random() < 0.5:
            self.lines.append("")
        self.put(self.chance.choice(RESETS))

    def say_feed(self):
        thousandths = self.chance.choice((1_000, 16_500, 60_000, 200_000, 499_999, 900_000))
        self.lines.append(f"F{thousandths / 1000:.3f}")

    def say_move(self):
        words = ""
        if self.chance.random() < (0.02 if self.heading else 0.15):
            self.rapid = not self.rapid
            words = "G0" if self.rapid else "G1"
        if self.chance.random() < 0.03:
            words += "G90" if self.relative else "G91"
            self.guess_modes(words)
        for axis, often in enumerate((1, 1, 0) if self.heading else (0.8, 0.7, 0.2)):
            if self.chance.random() < often:
                way = self.way_along(axis)
                self.place[axis] += way
                micrometres = way if self.relative else self.place[axis]
                words += f"{AXES[axis]}{micrometres / (25_400 if self.in_inches else 1_000):.5f}"
        self.lines.append(words)

    def way_along(self, axis):
        way = self.heading[axis] if self.heading else self.chance.randint(-self.scale, self.scale)
        is_inside = -self.travel <= self.zero + self.place[axis] + way <= 0
        return way if not self.travel or is_inside or self.chance.random() < 0.02 else -way

    def say_mark(self):
        self.chance.choice((self.say_spindle, self.say_coolant, self.say_dwell))()

    def say_spindle(self):
        mode = self.chance.choice(("M3", "M4", "M5"))
        self.lines.append(mode if mode == "M5" else f"{mode}S{self.chance.randint(1, 20_000)}")

    def say_coolant(self):
        self.flood = not self.flood
        self.lines.append("M8" if self.flood else "M9")

    def say_dwell(self):
        self.lines.append(f"G4P{self.chance.randint(0, 3000) / 1000:.3f}")

    def say_place(self):
        self.lines.append(self.chance.choice(PLACES))

    def say_flow(self):
        self.lines.append(self.chance.choice(FLOW))

    def say_setting(self):
        number, values = self.chance.choice((
            (100, ("40", "157.480", "250", "400.123")),
            (110, ("1", "90", "500", "6000")),
            (120, ("1", "10", "77.777", "500")),
            (11, ("0", "0.002", "0.010", "0.050", "10")),
            (10, ("0", "1", "2", "3")),
            (None, ("1", "4", "2.5", "3.9999", "10", "0", "-1", "0.0005", "12", "", "1X", "7.")),
        ))
        value = self.chance.choice(values)
        if number is None:
            number = self.chance.choice((*SETTINGS, 100, 101, 102, 7))
        elif number >= 100:
            number += self.chance.randrange(3)
        self.lines.append(f"${number}={value}")

    def say_jogs(self):
        """Some jogs, one behind the other, and now and then what an operator or a job sends among them; and what cancels them."""
        for _ in range(self.chance.choice((1, 1, 1, 1, 2, 3, 4, 12, 25))):
            self.lines.append(self.chance.choice(ODD_JOGS) if self.chance.random() < 0.25 else self.some_jog())
            if self.chance.random() < 0.25:
                self.lines.append(self.chance.choice(AMONG_JOGS))
        if self.cancels and self.chance.random() < 0.7:
            self.lines.append(self.chance.choice(CANCELS))
            if self.chance.random() < 0.3:
                self.put(self.chance.choice(CANCELS[:10]))

    def some_jog(self):
        """A jog. It says how its values count, or leaves it to the modes."""
        chance = self.chance
        relative, in_inches = chance.random() < 0.7, chance.random() < 0.1
        words = [f"G9{int(relative)}"] if relative != self.relative or chance.random() < 0.8 else []
        words += [f"G2{int(not in_inches)}"] if in_inches != self.in_inches or chance.random() < 0.3 else []
        words.append(f"F{chance.choice((0.5, 10, 100, 500, 499.9995, 6000)) / (25.4 if in_inches else 1):.4f}")
        for axis in chance.sample(range(3), chance.choice((1, 1, 2, 3))):
            way = chance.choice((0, 4, chance.randint(-self.scale, self.scale), chance.randint(-self.scale, self.scale)))
            self.place[axis] += way
            micrometres = way if relative else self.place[axis]
            words.append(f"{AXES[axis]}{micrometres / (25_400 if in_inches else 1_000):.5f}")
        chance.shuffle(words)
        return "$J=" + "".join(words)

    def say_system(self):
        self.lines.append(self.chance.choice(SYSTEM_LINES))

    def say_empty(self):
        self.lines.append(self.chance.choice(("", "", "%", "/", "(no words)", ";") + REALTIME))

    def say_words(self):
        chance = self.chance
        words = [chance.choice(PHRASES)] if chance.random() < 0.4 else []
        if not words or chance.random() < 0.5:
            words += [self.some_word() for _ in range(chance.choice((1, 1, 2, 2, 3, 3, 4, 5, 9)))]
        self.lines.append("".join(words))

    def some_word(self):
        chance, kind = self.chance, self.chance.random()
        if kind < 0.45:
            return chance.choice(CODES)
        if kind < 0.98:
            letters = AXES + "F" if kind < 0.8 else "FSTNPLPLIJKRA"
            return chance.choice(letters) + chance.choice(NUMBERS if chance.random() < 0.93 else ODD_NUMBERS)
        return chance.choice(("%", "X", "1", "N" + "0" * chance.choice((70, 78, 79, 120))))


def some_job(chance, _number=0):
    return JobMaker(chance).make()
