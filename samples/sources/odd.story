// Three depots, and what an allowed run may do though a group layer seldom does: a recovery without a crash, transitional sets smaller than they could
// be, a transitional configuration before any regular one, a regular one that does not reach all its members, a request whose record is not sent.
servers 3 quota 3

// All meet: the primary component 1.
0 1 2: regular 1 {0,1,2}
0: deliver 0 1 2 0
1: deliver 0 1 2 0 1
2: deliver 0 1 2 0 1 2
0: deliver 1 2
1: deliver 2

// a turns green at 0 and 1. Then 1 starts again from its store, without a crash: a is gone there, and its own b is red.
0: request "a"
1: request "b"
0 1: deliver 0
1: recover

// 0 and 2 leave with a set of one each, although both stay up. 1, which has no configuration, gets a transitional one.
0: transitional {0}
0: deliver 1
2: transitional {2}
2: deliver 0 1
1: transitional {1}

// The configuration 2 has all three as members, and 2 never takes it. 1 crashes in the exchange, and 0 leaves with 1's State in hand.
0 1: regular 2 {0,1,2}
0 1: deliver 0
crash 1
1: recover
0: transitional {0}
0: deliver 1

// All meet in 3, which 2 comes to from 1 directly: the primary component 2, with a and b green at all.
2 0 1: regular 3 {0,1,2}
0: deliver 2 0 1 0 0 0
1: deliver 2 0 1 0 0 0 1
2: deliver 2 0 1 0 0 0 1 2
0: deliver 1 2
1: deliver 2

// 2 takes c, and goes down before it is sent: it comes back with c red.
2: request "c" sent 0
crash 2
2: recover
0 1: transitional {0,1}

// All meet again: 2 resends c. The primary component 3, with a, b and c green at all.
2 0 1: regular 4 {0,1,2}
0: deliver 2 0 1
1: deliver 2 0 1
2: deliver 2 0 1 2 2
0: deliver 2 2 0
1: deliver 2 2 0 1
2: deliver 0 1
0: deliver 1
