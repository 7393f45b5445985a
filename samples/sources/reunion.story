// Three depots: together, apart, a crash, and together again. No configuration here has exactly half of a last primary.
servers 3 quota 16

// All meet: the primary component 1. P1 turns green at all.
0 1 2: regular 1 {0,1,2}
0 1 2: deliver 0 1 2
0 1 2: deliver 0 1 2
0: request "P1"
0 1 2: deliver 0

// The line to 2 drops. 0 and 1 are more than half of three: the primary component 2, and P2 turns green there.
0 1: transitional {0,1}
2: transitional {2}
0 1: regular 2 {0,1}
0 1: deliver 0 1
0 1: deliver 0 1
1: request "P2"
0 1: deliver 1

// 1 goes down before it has stored that P2 is green. 2 alone is no majority: its P3 is red. 1 comes back with P2 red.
crash 1
2: regular 3 {2}
2: deliver 2
2: request "P3"
2: deliver 2
1: recover

// The lines are back: P2 by position and as red, P3 as red. The primary component 3: P1, P2, P3 are green at all.
0: transitional {0}
2: transitional {2}
0 1 2: regular 4 {0,1,2}
0 1 2: deliver 0 1 2
0 1 2: deliver 0 0 2
0 1 2: deliver 0 1 2
