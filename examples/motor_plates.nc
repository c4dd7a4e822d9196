(Two motor plates, size 23: the drawing is in inches, the fixture in millimetres)
(Blanks of 2.6 x 2.6 in, 6 mm aluminium: G54 the left one, G55 the right one, Z0 their face)
(G56 is the right blank again, for the engraver, which stands 3 mm shorter than the drill)
G17 G21 G40 G49 G90 G94 G54
G28.1                   ; the tool parks where it is now
G10 L2 P1 X40 Y30 Z-25  ; left blank, lower left corner, from the machine's zero
G10 L2 P3 X140 Y30 Z-28
G53 G0 X140 Y30         ; over the corner of the right blank, 25 mm above its face
G10 L20 P2 X0 Y0 Z25
T1 M3 S1800             (drill 0.201 in)
G4 P1.5                 ; the spindle comes up to speed
(left blank: four holes, absolute)
G20 G54 G0 X0.372 Y0.372
Z0.1 M8
G1 Z-0.3 F6
G4 P0.2                 ; breaks the chip
G0 Z0.1
X2.228
G1 Z-0.3
G4 P0.2
G0 Z0.1
Y2.228
G1 Z-0.3
G4 P0.2
G0 Z0.1
X0.372
G1 Z-0.3
G4 P0.2
G0 Z0.1
(right blank: the same holes, each from the one before)
G55 X0.372 Y0.372
G91
G1 Z-0.4
G0 Z0.4
X1.856
G1 Z-0.4
G0 Z0.4
Y1.856
G1 Z-0.4
G0 Z0.4
X-1.856
G1 Z-0.4
G0 Z0.4
M5 M9
G28 Z0                  ; up first, then over to the parking place
G28 X0 Y0
M0                      (the engraver comes in: 60 degrees)
T2 M3 S9000
G4 P3
(a cross in the middle of the right blank, in millimetres from the middle)
G20 G90 G56 G0 X1.3 Y1.3
G92 X0 Y0
G21 Z2
X-5 Y0 M8
G1 Z-0.2 F60
X5 F120
G0 Z2
X0 Y-5
G1 Z-0.2 F60
Y5 F120
G0 Z2
G92.1
M5 M9
G91 G28 Z0
G28 X0 Y0
M30
