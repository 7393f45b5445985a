// Two depots with the quota 1. Document 02, K6: what is green at both becomes white, and its place is used again.
servers 2 quota 1

// Both meet: the primary component 1. A and B turn green at both; that A is green at 0 no delivered record says yet.
0 1: regular 1 {0,1}
0 1: deliver 0 1
0 1: deliver 0 1
0: request "A"
0 1: deliver 0
1: request "B"
0 1: deliver 1
0: request "C" refused 3

// The line drops, and is back. With both States 0 knows A and B to be green at both: they are white there. 1 goes down with one State.
0: transitional {0}
1: transitional {1}
0 1: regular 2 {0,1}
0: deliver 0 1
1: deliver 0
crash 1
0: transitional {0}
0: deliver 0
1: recover

// 0 is half, with the lowest number: the primary component 2. C is its second action, above the quota.
0: regular 3 {0}
0: deliver 0
0: deliver 0
0: request "C"
0: deliver 0
0: request "D" refused 3

// 1 joins late: A has its only place for an action of 0. C says that two are white, and takes it.
0: transitional {0}
0 1: regular 4 {0,1}
0 1: deliver 0 1
0 1: deliver 0 0
0 1: deliver 0 1

// The primary component 3. With D, which says that C is green at 1, C is white at both; E is the third action of 0.
1: request "D"
0 1: deliver 1
0: request "E"
0 1: deliver 0
