// Three depots. A corner keyed while States are exchanged, a power cut, and the corner green in the end; another keyed in Construct.
servers 3 quota 4

// All meet: the primary component 1.
0 1 2: regular 1 {0,1,2}
0 1 2: deliver 0 1 2
0 1 2: deliver 0 1 2

// The line to 2 drops, and is back at once. While States are exchanged a crew keys K at 1: numbered, stored, not sent.
0 1: transitional {0,1}
2: transitional {2}
0 1 2: regular 2 {0,1,2}
0 1 2: deliver 0
1: request "K"

// The power is cut at 1. It comes back with K red; the others have lost it from their configuration.
crash 1
0 2: transitional {0,2}
0 2: deliver 2
1: recover

// All meet again: 1 resends K as red. In Construct a crew keys L at 0: numbered and stored.
0 1 2: regular 3 {0,1,2}
0 1 2: deliver 0 1 2
0 1 2: deliver 1
0: request "L"

// The primary component 2, with K green at all. Reaching Reg_prim, 0 sends L, one time.
0 1 2: deliver 0 1 2
0 1 2: deliver 0
