(Tool change: two holes and a groove in plywood, dry; a drill of 3 mm, then a cutter of 6 mm)
(Zero: lower left corner, face of the sheet. Both tools have a collar, so that they reach equally far down.)
G21 G90 G94 G54
G0 Z5
(the drill)
T1 M3 S8000
G4 P2      ; the spindle comes up to speed
G0 X10 Y10
G1 Z-2 F100
G0 Z5
X30
G1 Z-2
G0 Z5
(off, up and away, and wait: change the tool, then send ~)
M5
G0 Z30
G0 X0 Y0
M0
(the cutter)
T2 M3 S6000
G4 P2
G0 Z5
G0 X5 Y20
G1 Z-1 F150
X35 F300
G0 Z5
M5 M9
M30
