// Three servers through all eight states: partitions, a crash, four primary components, one of them installed from Un.
servers 3 quota 2

// All meet, exchange States and CPCs, and install the primary component 1.
0 1 2: regular 1 {0,1,2}
1: regular 9 {0,1,2} refused 5                  // no transitional one has come
0 1 2: deliver 0 1
0: CPC 1 id 1 refused 5                         // in Exchange_states
0 1 2: deliver 2
2: transitional {0,1} refused 2                 // without the server itself
0 1 2: deliver 0 1
1: CPC 1 id 1 refused 6                         // a second one
0 1 2: deliver 2

// A turns green at all.
0: request "A"
0 1 2: deliver 0
2: action 2/1 green 0 "X" refused 5             // it has numbered none

// The line drops: {0,1} and {2}. C and B, sent before that, come after it, and turn yellow.
1: request "C"
2: request "B"
0 1: transitional {0,1}
0 1: deliver 1
2: transitional {2}
2: deliver 2

// 0 and 1 are a majority: the primary component 2, with C green.
0 1: regular 2 {0,1}
0 1: deliver 0
0: State 2 id 2 refused 6                       // 2 is no member
0 1: deliver 1
0 1: deliver 0 1

// 2 alone is none. Its D is numbered and stored, and it goes down before D is sent; recovery enters it red.
2: regular 3 {2}
2: deliver 2
2: request "D" sent 0
crash 2
2: recover

// All meet again: A and C by position, C as red, B and D as red. E waits at 0 meanwhile.
0 1: transitional {0,1}
0 1 2: regular 4 {0,1,2}
0 1 2: deliver 0 1 2
1: recovery but version 1 refused 1
0: request "E"
0 1 2: deliver 0 0 2 2

// The line drops while CPCs are on their way. 0 installs the primary component 3 and sends E. 1 has all CPCs late, and E: it installs from Un.
// 2 has all CPCs late, and no more.
0: deliver 0 1 2
1: transitional {1}
1: deliver 0 1 2 0
2: transitional {2}
2: deliver 0 1 2
0: transitional {0}
0: deliver 0

// All meet, 2 with its mark: B and D by position, E as red. The primary component 4, with E green.
0 1 2: regular 5 {0,1,2}
0 1 2: deliver 0 1 2
0 1 2: deliver 0 0 0
0 1 2: deliver 0 1 2
0: request "F"
0: request "G" refused 3                        // E and F are its quota, A is white
0 1 2: deliver 0
