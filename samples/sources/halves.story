// An office of four that splits two and two. Document 02, K1: the half with the lowest-numbered member goes on.
servers 4 quota 2

// All meet, exchange States and CPCs, and install the primary component 1.
0 1 2 3: regular 1 {0,1,2,3}
0 1 2 3: deliver 0 1 2 3
0 1 2 3: deliver 0 1 2 3

// A turns green at all.
1: request "A"
0 1 2 3: deliver 1

// The line drops: {0,1} and {2,3}.
0 1: transitional {0,1}
2 3: transitional {2,3}

// 0 and 1 are half, with the lowest-numbered member: the primary component 2. B turns green there.
0 1: regular 2 {0,1}
0 1: deliver 0 1
0 1: deliver 0 1
0: request "B"
0 1: deliver 0

// 2 and 3 are the other half, and none. C stays red there.
2 3: regular 3 {2,3}
2 3: deliver 2 3
2: request "C"
2 3: deliver 2

// All meet again: B by position and as red, C as red. The primary component 3, with A, B and C green at all.
0 1: transitional {0,1}
2 3: transitional {2,3}
0 1 2 3: regular 4 {0,1,2,3}
0 1 2 3: deliver 0 1 2 3
0 1 2 3: deliver 0 0 2
0 1 2 3: deliver 0 1 2 3
