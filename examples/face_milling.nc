(Face milling: block of 80 x 50 mm in aluminium, face mill of 16 mm with three inserts, three layers of 0.4 mm)
(Zero: front left corner, top of the block. On a board the settings would stay stored.)
$11=0.020  ; junction deviation, mm
$110=4000  ; greatest rate of X, Y, Z, mm/min
$111=4000
$112=1500
$120=400   ; acceleration of X, Y, Z, mm/s2
$121=400
$122=200
G21 G90 G94 G54
G0 Z10
X-12 Y3
T1 M3 S9000
G4 P4      ; the spindle comes up to speed
M8
(layer 1)
G0 X-12 Y3
Z1
G1 Z-0.4 F500   ; beside the block
X92 F1600
Y13
X-12
Y23
X92
Y33
X-12
Y43
X92
G0 Z5
(layer 2)
G0 X-12 Y3
Z1
G1 Z-0.8 F500   ; beside the block
X92 F1600
Y13
X-12
Y23
X92
Y33
X-12
Y43
X92
G0 Z5
(layer 3)
G0 X-12 Y3
Z1
G1 Z-1.2 F500   ; beside the block
X92 F1600
Y13
X-12
Y23
X92
Y33
X-12
Y43
X92
G0 Z5
G0 Z10
M5 M9
X0 Y80     ; the table comes forward
M30
