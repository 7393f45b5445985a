// The thesis's figure 4.8, 'An Example of Configuration Changes and Message Delivery', carried on to a full merge. Its p, q, r, s, t are 0 to 4, its
// messages m1 to m5 and m' the actions of the requests "1" to "5" and "m'".
servers 5 quota 4

// p, q and r are more than half of five: the primary component 1. s and t are together, in none.
0 1 2: regular 1 {0,1,2}
3 4: regular 2 {3,4}
0: deliver 0 1 2 0
1: deliver 0 1 2 0 1
2: deliver 0 1 2 0 1 2
0: deliver 1 2
1: deliver 2
3 4: deliver 3 4

// Five messages are sent in {p,q,r}, one in {s,t}.
0: request "1"
1: request "2"
0: request "3"
2: request "4"
0: request "5"
3: request "m'"

// p knows that all have received m1 and m2: both are delivered in the regular configuration, and green. q and r know it of m1 alone.
0: deliver 0 1
1 2: deliver 0

// p is alone: its transitional configuration, then m3, m4 and m5.
0: transitional {0}
0: deliver 0 2 0

// q and r go on together: m2 and m4 in their transitional configuration. They lack m3, so m5, which comes after it, cannot be delivered.
1: transitional {1,2}
1: deliver 1 2
2: transitional {1,2}
2: deliver 1 2

// m' is delivered in {s,t}: nobody leaves it, and its transitional configuration is empty.
3 4: deliver 3
3 4: transitional {3,4}

// The next regular configurations: {p}, and {q,r,s,t}. Here the figure ends.
0: regular 3 {0}
0: deliver 0
1 2 3 4: regular 4 {1,2,3,4}

// q and r are two of the three of the primary component 1: with s and t they make 2, where m2 keeps the place that p has it green at.
1: deliver 1 2 3 4 1 1 1 1
2: deliver 1 2 3 4 1 1 1 1
3: deliver 1 2 3 4 1 1 1 1 3 3
4: deliver 1 2 3 4 1 1 1 1 3 3 4
1: deliver 3 3 4 1
2: deliver 3 3 4 1 2
3: deliver 4 1 2
4: deliver 1 2
1: deliver 2

// All meet: the primary component 3, with m3 and m5 behind the others.
0: transitional {0}
1 2 3 4: transitional {1,2,3,4}
0 1 2 3 4: regular 5 {0,1,2,3,4}
0: deliver 0 1 2 3 4 0 0
1: deliver 0 1 2 3 4 0 0 1 1 1 1
2: deliver 0 1 2 3 4 0 0 1 1 1 1 2
3: deliver 0 1 2 3 4 0 0 1 1 1 1 2 3
4: deliver 0 1 2 3 4 0 0 1 1 1 1 2 3 4
0: deliver 1 1 1 1 2 3 4 0
1: deliver 2 3 4 0
2: deliver 3 4 0
3: deliver 4 0
4: deliver 0
