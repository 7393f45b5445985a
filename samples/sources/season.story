// A season of a hundred days at three depots with the quota 4 (document 02, K6). Payloads are operations of the register (K2). Depot 2 is away for
// fifty days, depot 1 has a power cut in the middle, and each depot makes more than two hundred entries.
servers 3 quota 4

// A day in touch, four entries a depot. In the morning each sets a corner and a helper peg; later the corner is moved and the helper retired.
let day
    0: request set "A@" @000 10000
    0: request set "A@h" @500 10000
    0 1 2: deliver 0 0
    1: request set "B@" @000 20000
    1: request set "B@h" @500 20000
    0 1 2: deliver 1 1
    2: request set "C@" @000 30000
    2: request set "C@h" @500 30000
    0 1 2: deliver 2 2
    0: request move "A@" @000 10250
    0: request retire "A@h"
    0 1 2: deliver 0 0
    1: request move "B@" @000 20250
    1: request retire "B@h"
    0 1 2: deliver 1 1
    2: request move "C@" @000 30250
    2: request retire "C@h"
    0 1 2: deliver 2 2
end

// A day on which no depot has a place left for an entry of its own.
let full
    0: request set "A@" @000 10000 refused 3
    1: request set "B@" @000 20000 refused 3
    2: request set "C@" @000 30000 refused 3
end

// All meet: the primary component 1.
0 1 2: regular 1 {0,1,2}
0 1 2: deliver 0 1 2
0 1 2: deliver 0 1 2
day 1..25
0 1 2: has green 300 white 294 red 0 pegs 75

// The line to 2 drops. 0 and 1 are the primary component 2, and with their States know 298 to be green at all; 2 alone knows no more than before.
0 1: transitional {0,1}
2: transitional {2}
0 1: regular 2 {0,1}
0 1: deliver 0 1
0 1: deliver 0 1
0 1: has green 300 white 298
2: regular 3 {2}
2: deliver 2
2: has green 300 white 294

// Days 26 to 29: one entry a day. 0 and 1 have four places each, 2 has two. 0 retires C25, and 2, which cannot know, moves it.
1: request set "B26" 26000 20000
0 1: deliver 1
0: request retire "C25"
0 1: deliver 0
2: request move "C25" 25000 30500
2: deliver 2
1: request set "B27" 27000 20000
0 1: deliver 1
0: request set "A27" 27000 10000
0 1: deliver 0
2: request set "C27" 27000 30000
2: deliver 2
1: request set "B28" 28000 20000
0 1: deliver 1
0: request set "A28" 28000 10000
0 1: deliver 0
2: request set "C28" 28000 30000 refused 3
1: request set "B29" 29000 20000
0 1: deliver 1
0: request set "A29" 29000 10000
0 1: deliver 0
0 1: has green 308 white 298 red 0
2: has green 300 white 294 red 2

// From day 30 on all three wait, and ask once a week.
full 30
full 37
full 44

// Day 50: a power cut at 1, which stored its list when B29 was entered, and not since. It comes back with B29 red, and without A29.
crash 1
0: transitional {0}
1: recover
1: has green 306 red 1
0 1: regular 4 {0,1}
0 1: deliver 0 1
0 1: deliver 0 0 0
0 1: deliver 0 1
0 1: has green 308 white 298 red 0
full 51
full 58
full 65
full 72

// Day 76: 2 is back. What it lacks is resent, and its own two; with its State 300 are white at all. The primary component 4.
0 1: transitional {0,1}
2: transitional {2}
0 1 2: regular 5 {0,1,2}
0 1 2: deliver 0 1 2
0 1 2: deliver 0 0 0 0 0 0 0 0 0 0 0 0 0 0 0 0 2 2
0 1 2: has green 308 white 300 red 2
0 1 2: deliver 0 1 2
0 1 2: has green 310 white 300 red 0

// No delivered record says yet that 2 has more than 300: 0 and 1 are still full. The first entry of 2 says so.
0: request set "A76" 76000 10000 refused 3
1: request set "B76" 76000 20000 refused 3
2: request move "C27" 27000 30250
0 1 2: deliver 2
0 1 2: has green 311 white 308

day 76..100
0 1 2: has green 611 white 605 red 0 pegs 157
alike 0 1 2
