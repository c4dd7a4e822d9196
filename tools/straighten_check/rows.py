"""Rows of what becomes of lines."""
from straighten_lib.jobs import straightened
from straighten_lib.rewriting import Options

COARSE = 0.5  # mm, so that arcs have few chords

# A text, and what it becomes.
CHANGED = (
    ("%\nG0 X1\n%\n", "G0 X1\n"),
    ("%_N_PART_MPF\n", "(_N_PART_MPF)\n"),
    ("O1000 (part)\n", "(O1000) (part)\n"),
    (":1001\n", "(:1001)\n"),
    ("T2 M6\n", "T2 M5 M0 (M6: tool 2)\n"),
    ("M6 T2 (drill)\r\n", "T2 M5 M0 (M6: tool 2) (drill)\r\n"),
    ("T3\nN5 M06 S900 M3\n", "T3\nN5 M5 M0 (M6: tool 3)\nS900 M3\n"),
    ("T1 M6 G43 H1\n", "T1 M5 M0 (without G43 H1) (M6: tool 1)\n"),
    ("M3 M7\n", "M3 (without M7)\n"),
    ("G64 P0.02 Q0.01\n", "(without G64 P0.02 Q0.01)\n"),
    ("G64 P0.02 G4 P1\n", None),
    ("G43 Z15. H01\n", "Z15. (without G43 H01)\n"),
    ("G49 H0\n", "G49 (without H0)\n"),
    ("G0 G17 G80\n", "G0 G17 (without G80)\n"),
    ("G80\nN2 G28 G91 Z0\n", "G80\nG0\nN2 G28 G91 Z0\n"),
    ("N10000001 G0 X1\n", "G0 X1 (without N10000001)\n"),
    ("T256\n", "(without T256)\n"),
    ("(a (nested) one) G0 X1 ; end\n", "G0 X1 (a [nested] one) ; end\n"),
    ("G90.1\n", "(without G90.1)\n"),
    ("F9\nG0 X1\nG2 X-1 I-1 ; c\n", "F9\nG0 X1\nG1 X0 Y-1 ; c\nX-1 Y0\n"),
    ("F9\nG0 X1\nG2 X-1 Y0 R1 (c)\n", "F9\nG0 X1\nG1 X0 Y-1 (c)\nX-1 Y0\n"),
    ("F9\nG0 X1\nN7 g03 x-1. y0 i-1 M8 M0\n", "F9\nG0 X1\nN7 G1 X0 Y1 M8\nX-1. Y0 M0\n"),
    ("F9\nG0 X1\nG3\nX-1 R1\n", "F9\nG0 X1\nG1 X0 Y1\nX-1 Y0\n"),
    ("F9\nG0 X1\nG3 I-1\n", "F9\nG0 X1\nG1 X0 Y1\nX-1 Y0\nX0 Y-1\nX1 Y0\n"),
    ("F9\nG91 G0 X1\nG3 I-1 Z4\n", "F9\nG91 G0 X1\nG1 X-1 Y1 Z1\nX-1 Y-1 Z1\nX1 Y-1 Z1\nX1 Y1 Z1\n"),
    ("F9\nG90.1\nG0 X6 Y5\nG3 X4 I5 J5\n", "F9\n(without G90.1)\nG0 X6 Y5\nG1 X5 Y6\nX4 Y5\n"),
    ("F9\nG18 G2 Z2 K1\n", "F9\nG18 G1 X1 Z1\nX0 Z2\n"),
    ("F9\nG19 G2 Y2 J1\n", "F9\nG19 G1 Y1 Z1\nY2 Z0\n"),
    ("F9\nG92 X1\nG2 X-1 I-1\n", "F9\nG92 X1\nG1 X0 Y-1\nX-1 Y0\n"),
    ("F9\nG10 L2 P2 X-1\nG55\nG2 X-1 I-1\n", "F9\nG10 L2 P2 X-1\nG55\nG1 X0 Y-1\nX-1 Y0\n"),
    ("F9\nG0 X1\nG2 X-1 I-1 M30\n", "F9\nG0 X1\nG1 X0 Y-1\nX-1 Y0 M30\n"),
    ("G0 Z5\nG81 X1 Y2 Z-3 R1 F60\nX4\nG80\n", "G0 Z5\nG0 X1 Y2 F60\nZ1\nG1 Z-3\nG0 Z5\nG0 X4\nZ1\nG1 Z-3\nG0 Z5\nG80\n"),
    ("G0 Z5\nG99 G82 X1 Z-3 R1 P.5 F60\n", "G0 Z5\nG0 X1 F60\nZ1\nG1 Z-3\nG4 P0.5\nG0 Z1\n"),
    ("G98 G83 X1 Z-3 R1 Q3 F60\n", "G0 Z1 F60\nX1\nG1 Z-2\nG0 Z1\nZ-1.75\nG1 Z-3\nG0 Z1\n"),
    ("G73 Z-3 R1 Q3 F60\n", "G0 Z1 F60\nG1 Z-2\nG0 Z-1.75\nG1 Z-3\nG0 Z1\n"),
    ("G85 Z-3 R1 F60\n", "G0 Z1 F60\nG1 Z-3\nZ1\n"),
    ("G20 G73 Z-.2 R.1 Q.2 F6\n", "G20 G0 Z0.1 F6\nG1 Z-0.1\nG0 Z-0.09\nG1 Z-0.2\nG0 Z0.1\n"),
    ("G1 X1.0000000000000000000001 Y2.0000000000000000000001 Z3.0000000000000000000001 F100\n", "G1 X1 Y2 Z3 F100\n"),
)
# Texts that stay as they are, byte for byte.
UNTOUCHED = (
    "g1x1.50000y.5f100 (small) ;both\r\n\r\n  \nG0 X1", "/G0 X1\n", "G28 G91 Z0\nG90\nG53 G0 Z-1\nG30 X1\n", "$110=4000\n$J=G91X1F10\n?\n",
    "G10 L20 P1 X0 Y0\nG92 Z1\nG92.1\nG28.1\nG4 P0.5\nM0\nM1\n", "(unclosed\nG1 X1 F9 (also", "T1\nM3 S100 M8\nN5 G61 G91.1 G94 G40 G49\nM30\n",
    "(\xe4\xff ? ! ~ (%)\n",
)
# A text, and what is said of it.
REFUSED = (
    ("G0 X1\n#1=3\n", "line 2: a parameter (#): #1=3"),
    ("G0 X[1+2]\n", "line 1: an expression ([ ])"),
    ("G0 X#<width>\n", "line 1: a parameter (#)"),
    ("O100 sub\n", "line 1: a subroutine, a loop or a condition (O word)"),
    ("o<part> call [1]\n", "line 1: a subroutine, a loop or a condition (O word)"),
    ("M98 P100\n", "line 1: M98, a subroutine, is not served"),
    ("G41 D1\n", "line 1: G41, cutter compensation, is not served"),
    ("G93 G1 X1 F2\n", "line 1: G93, feed as inverse time, is not served"),
    ("G43.1 Z1\n", "line 1: G43.1, a tool length that the job sets, is not served"),
    ("G84 Z-1 R1 F9\n", "line 1: G84, tapping, is not served"),
    ("G59.1\n", "line 1: G59.1 is not served"),
    ("G0 A90\n", "line 1: the letter A is not served"),
    ("G0 X\n", "line 1: no number after X"),
    ("G0 X1 X2\n", "line 1: X2 is the second of its kind"),
    ("G0 G1 X2\n", "line 1: G1 is the second of its kind"),
    ("G1 X2\n", "line 1: no feed is set (error:22)"),
    ("F9\nG0 X10\nG2 X0 Y10 I-10.1\n", "line 3: the radii of the arc are 10.1000 mm at its start and 10.0005 mm at its end (error:33)"),
    ("F9\nG2 X1 R.4\n", "line 2: a radius of 0.4000 mm is less than half the way of 1.0000 mm (error:34)"),
    ("F9\nG2 X0 R1\n", "line 2: an arc by R whose end is its start (error:33)"),
    ("F9\nG2 X1\n", "line 2: an arc without its centre or radius (error:35)"),
    ("F9\nG2 X2 I1 R1\n", "line 2: an arc with a centre and a radius"),
    ("F9\nG2 X2 I1\nX5\n", "line 3: an arc without its centre or radius (error:35)"),
    ("F9\nG53 G2 X2 I1\n", "line 2: G53 with G2"),
    ("F9\nG1 X2 I1\n", "line 2: I belongs to no code of the line (error:36)"),
    ("F9\nG91 G81 X1 Z-1 R1\n", "line 2: G81 outside of G17 and G90"),
    ("F9\nG81 X1 Z-1 R1 L3\n", "line 2: G81 with repeats (L)"),
    ("F9\nG83 X1 Z-1 R1\n", "line 2: G83 without a Q above 0"),
    ("G80\nX1\n", "line 2: an axis word or G53 behind G80"),
    ("G4 X1\n", "line 1: G4 without P"),
    ("G10 L1 P1 Z1\n", "line 1: a G10 other than L2 and L20 is not served"),
)


def wrong_rows():
    """The first row that does not hold, in words, or None."""
    options = Options(tolerance=COARSE)
    for text, right in CHANGED:
        result = straightened(text, options)
        if right is not None and (result.refused or result.text != right):
            return f"{text!r} becomes {result.refused or result.text!r} in place of {right!r}"
    for text in UNTOUCHED:
        result = straightened(text, options)
        if result.refused or result.text != text:
            return f"{text!r} is changed, and is right already: {result.refused or result.text!r}"
    for text, reason in REFUSED:
        refused = straightened(text, options).refused
        if not refused or not refused[0].startswith(reason):
            return f"{text!r} is told as {refused} in place of {reason!r}"
    dropped = straightened("T1 M6\nM10 A5\n", Options(keeps_tool_changes=False, left_out=frozenset({"M10", "A"})))
    if dropped.text != "T1 (without M6)\n(without M10 A5)\n":
        return f"what the caller has left out becomes {dropped.refused or dropped.text!r}"
    return None
