#!/bin/sh
# A picture of a run, as SVG: a band for each depot, events from left to right, in as many strips as the run needs.
# usage: sh scripts/picture.sh RUN.bin LINES.txt > RUN.svg      (LINES.txt: what replay prints of RUN.bin)
#        sh scripts/picture.sh RUN.bin LINES.txt FIRST LAST > RUN.svg           (only the events from FIRST to LAST)
# The band's colour is the depot's state, the bar in it the depot's list: green entries below, of which the first ones are white, red ones above. White
# ones that every depot has in all of the picture are left out but for the last few. Below a regular configuration stands what was delivered in it, and
# in the transitional one behind it: States, retransmissions, CPCs. The run does not say when a depot crashed: the stretch from its last event to its
# recovery is hatched. Needs a POSIX shell, awk and od.
set -eu
if { [ $# -ne 2 ] && [ $# -ne 4 ]; } || [ ! -r "$1" ] || [ ! -r "$2" ]; then
    echo "usage: sh $0 RUN.bin LINES.txt [FIRST LAST] > RUN.svg" >&2
    exit 2
fi
here=$(dirname "$0")/picture
LC_ALL=C
export LC_ALL
{ od -An -v -tu1 "$1"; echo lines; cat "$2"; } |
    awk -v start="${3:-1}" -v final="${4:-0}" -f "$here/run.awk" -f "$here/draw.awk"
