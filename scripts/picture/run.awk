# Reads the bytes of a run, as od prints them, and what replay prints of it, behind a line `lines`.
BEGIN {
    least_white = 4                             # white entries that are left in a bar whose lower part is left out
    for (i = 32; i < 127; i++) shown[i] = sprintf("%c", i)
    shown[38] = "&amp;"; shown[60] = "&lt;"; shown[62] = "&gt;"
    operation[1] = "set"; operation[2] = "move"; operation[3] = "retire"
}
$1 == "lines" { in_lines = 1; next }
!in_lines { for (i = 1; i <= NF; i++) byte[count++] = $i; next }
NF == 8 && $1 != "event" {
    events = $1; server[$1] = $2; returned[$1] = $3; state[$1] = $4; red[$1] = $5; green[$1] = $6; primary[$1] = $7
}

# ---- the run

function fail(s) { print "picture.sh: " s | "cat 1>&2"; close("cat 1>&2"); failed = 1; exit 1 }

function number(at, size,   k, v) { for (k = 0; k < size; k++) v = v * 256 + byte[at + k]; return v }
function members(s,   k, t) { for (k = 0; k < n; k++) { if (s % 2) t = t (t == "" ? "" : ",") k; s = int(s / 2) } return "{" t "}" }

# A payload: an operation of the register by its name; or the first eight bytes.
function payload(at, size,   m) {
    m = byte[at + 1]
    if (size > 2 && m > 0 && byte[at] in operation && size == 2 + m + (byte[at] == 3 ? 0 : 8)) return operation[byte[at]] " " begun(at + 2, m)
    return begun(at, size)
}
function begun(at, size,   k, t) {
    for (k = 0; k < size && k < 8; k++) t = t (byte[at + k] in shown ? shown[byte[at + k]] : ".")
    return t (size > 8 ? ".." : "")
}

# How many letters are seen of a text.
function letters(s) { gsub(/&[a-z0-9#]*;/, "x", s); return length(s) }

# What an event shows beside its state: `what` it is, and its label. An id may be 2^31 or more, which mawk prints as a whole number by %.0f alone.
function read_event(e, at,   kind, body) {
    kind = byte[at + 4]; body = at + 5
    if (returned[e] == 0) came[met[server[e]], kind]++
    if (kind == 7 && returned[e] != 1) label[e] = payload(body + 1, byte[body])
    if (returned[e] != 0) { what[e] = "refused"; label[e] = label[e] "&#215;" returned[e] }
    else if (kind == 5) { what[e] = "regular"; label[e] = sprintf("%.0f ", number(body, 4)) members(byte[body + 4]) }
    else if (kind == 6) { what[e] = "transitional"; label[e] = members(byte[body]) }
    else if (kind == 7) what[e] = "request"
    else if (kind == 8) label[e] = what[e] = "recovery"
    if (start <= e && e <= final) seen[what[e]] = seen[state[e]] = 1
}

# ---- white entries (document 02, K6): replay does not print how many there are, and so the rule stands here. The depot k was in the state was[k] with
# had[k] green entries and total[k] in all. An action that is passed over since its creator has no place left, as in no allowed run, is not seen here.

function raise(k, to, highest) { if (to > highest) to = highest; if (to > whites[k]) whites[k] = to }
function note(k, m, told_now) { if (told_now > noted[k, m]) noted[k, m] = told_now }
function read_white(e, kind, body,   k, m, at, ends, least) {
    k = server[e]; at = kind == 2 ? body + 5 : body
    ends = was[k] ~ /^Exchange/ && state[e] !~ /^Exchange/ && (kind == 2 || kind == 3)
    if (kind <= 2 && red[e] + green[e] > total[k]) raise(k, number(at + 7, 4), was[k] == "Un" ? green[e] : had[k])
    if (kind == 1 && was[k] == "Reg_prim") note(k, byte[at], number(at + 3, 4))
    if (kind == 3) told[k, byte[body]] = number(body + 5 + 2 * n, 4)
    if (kind == 8) whites[k] = stored_white[k]
    for (m = 0; m < n; m++) {
        if (kind == 5) told[k, m] = 0
        if (ends) note(k, m, told[k, m] + 0)
        if (kind == 8) noted[k, m] = stored[k, m]
        if (m == 0 || noted[k, m] < least) least = noted[k, m] + 0
    }
    raise(k, least, green[e])
    if (ends || kind == 5 || kind >= 7 || kind == 4 && was[k] == "Construct" && state[e] == "Reg_prim" || kind == 1 && was[k] == "Un") {
        stored_white[k] = whites[k]
        for (m = 0; m < n; m++) stored[k, m] = noted[k, m]
    }
}

# What was delivered in the configuration that came by the event e; so many of one kind, behind what is said already.
function counted(t, m, one, more) { return m ? t (t == "" ? "" : ", ") m " " (m == 1 ? one : more) : t }
function delivered(e,   t) {
    t = counted("", came[e, 3] + 0, "State", "States"); t = counted(t, came[e, 2] + 0, "resent", "resent")
    return counted(t, came[e, 4] + 0, "CPC", "CPCs")
}

# Also what stands below the bands: where primary components are formed, and what was delivered in a configuration. And the last event before each
# recovery.
function read_run(   e, at, k, known, last_event) {
    n = byte[4]; at = 7
    if (!final) final = events
    if (byte[3] != 9 || start < 1 || start > final || final > events) fail("no events")
    for (e = 1; e <= events; e++) {
        if (at + 4 >= count || byte[at] != server[e]) fail("event " e " is not the one of the lines")
        read_event(e, at)
        k = server[e]
        if (returned[e] == 0) read_white(e, byte[at + 4], at + 5)
        white[e] = whites[k] + 0; was[k] = state[e]; had[k] = green[e]; total[k] = green[e] + red[e]
        if (primary[e] > known[k] + 0 && state[e] ~ /^(Reg|Trans)_prim$/) { below[e] = "primary " primary[e]; below_kind[e] = "primary" }
        if (what[e] == "regular") { met[k] = e; below_kind[e] = "meeting" }
        if (what[e] == "recovery") { met[k] = 0; down_since[e] = last_event[k] + 1 }
        known[k] = primary[e]; last_event[k] = e
        at += 3 + number(at + 1, 2)
    }
    for (e in below_kind) {
        if (below_kind[e] == "meeting" && delivered(e) != "") below[e] = delivered(e)
        if (e in below && start <= e && e <= final) seen[below_kind[e]] = 1
    }
}

# Each depot as it is before the first event drawn; how far bars reach, and where they begin.
function read_start(   e, k, least) {
    for (k = 0; k < n; k++) { now[k] = "Non_prim"; whites[k] = greens[k] = reds[k] = 0 }
    for (e = 1; e < start; e++) { k = server[e]; now[k] = state[e]; whites[k] = white[e]; greens[k] = green[e]; reds[k] = red[e] }
    for (k = 0; k < n; k++) { if (k == 0 || whites[k] < least) least = whites[k]; if (greens[k] + reds[k] > most) most = greens[k] + reds[k] }
    for (e = start; e <= final; e++) {
        if (white[e] < least) least = white[e]
        if (white[e]) seen["white"] = 1
        if (green[e] + red[e] > most) most = green[e] + red[e]
    }
    for (k = 0; k < n; k++) { seen[now[k]] = 1; if (whites[k]) seen["white"] = 1 }
    if (least > least_white) bottom = least - least_white
    most -= bottom
}
