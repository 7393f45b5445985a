# Draws the events start to final of a run that run.awk has read.
BEGIN {
    page = 1040; left = 68; right = 68          # the width of the picture, and of its margins
    most_events = 80; most_step = 24; tail = 4  # events in a strip; the widest column; columns behind the last event
    row = 13; most_unit = 14; most_bar = 72     # heights: a row of labels, an entry, a bar
    letter = 7.2                                # the width of a letter of a label, rather too much than too little
    colour["white"] = "#94cba0"; colour["green"] = "#23833c"; colour["red"] = "#e0493f"; down_fill = "url(#down)"
    states = split("Exchange_states Exchange_actions Construct Reg_prim Trans_prim No Un Non_prim", state_named, " ")
    fill["Exchange_states"] = "#dbe7fb"; says["Exchange_states"] = "depots tell what they have"
    fill["Exchange_actions"] = "#b3ccf5"; says["Exchange_actions"] = "what some lack is resent"
    fill["Construct"] = "#e6d8f5"; says["Construct"] = "ready to form a primary component"
    fill["Reg_prim"] = "#d3efd3"; says["Reg_prim"] = "in a primary component, entries turn green"
    fill["Trans_prim"] = "#fff0b8"; says["Trans_prim"] = "leaving a primary component"
    fill["No"] = "#fbd9c9"; says["No"] = "leaving before one is formed"
    fill["Un"] = "#f5b895"; says["Un"] = "leaving, others may have formed one"
    fill["Non_prim"] = "#e4e4e4"; says["Non_prim"] = "in none, entries stay red"
}

# ---- SVG, kept until its height is known

function put(s) { out[++outs] = s }
function rect(x, y, w, h, f) { put(sprintf("<rect x=\"%.1f\" y=\"%.1f\" width=\"%.1f\" height=\"%.1f\" fill=\"%s\"/>", x, y, w, h, f)) }
function line(x, from, to, kind) { put(sprintf("<path class=\"%s\" d=\"M%.1f %.1fV%.1f\"/>", kind, x, from, to)) }
function text(x, y, kind, s) { put(sprintf("<text class=\"%s\" x=\"%.1f\" y=\"%.1f\">%s</text>", kind, x, y, s)) }
function triangle(x, y) { put(sprintf("<path class=\"triangle\" d=\"M%.1f %.1fl-4 -7h8z\"/>", x, y)) }
function x_of(e) { return int(left + (e - first) * step + 0.5) }

# ---- labels: a label begins at its event, and a line goes from it to the band. It lies in a row farther from the band than all labels that begin
# under or over it, so that no line crosses a letter.

# The labels of the depot k in this strip, from `labelled`, each in its row. Gives the number of rows.
function arrange(k, labelled,   e, i, j, rows) {
    labels = rows = 0
    for (e = first; e <= last; e++) if (server[e] == k && e in labelled) { of[++labels] = e; width[labels] = 9 + letter * letters(labelled[e]) }
    for (i = labels; i >= 1; i--) {
        lies[i] = 1
        for (j = i + 1; j <= labels && x_of(of[j]) < x_of(of[i]) + width[i]; j++) if (lies[j] >= lies[i]) lies[i] = lies[j] + 1
        if (lies[i] > rows) rows = lies[i]
        if (x_of(of[i]) + width[i] > reach) reach = x_of(of[i]) + width[i]
    }
    return rows
}

# Whether its line goes through the band.
function crosses(e) { return what[e] == "regular" || what[e] == "transitional" || what[e] == "recovery" }

function draw_above(y,   i, e, x, base) {
    for (i = 1; i <= labels; i++) {
        e = of[i]; x = x_of(e); base = y + 10 - row * lies[i]
        line(x, base - 9, crosses(e) ? y + band : y, what[e])
        if (what[e] == "request") triangle(x, y + 2)
        text(x + (what[e] == "request" ? 6 : 3), base, what[e], label[e])
    }
}

function draw_below(y,   i, x, kind) {
    for (i = 1; i <= labels; i++) {
        x = x_of(of[i]); kind = below_kind[of[i]]
        line(x, kind == "primary" ? y - band : y, y + row * lies[i], kind); text(x + 3, y + row * lies[i], kind, below[of[i]])
    }
}

# ---- bands

# From the event `from` on and before `to` the depot k has this state, or entries of a colour above `low` others, up to `high`.
function draw_state(k, y, from, to, s,   e, free) {
    rect(x_of(from), y, x_of(to) - x_of(from), band, fill[s])
    free = to                                   # where a line or the hatching begins
    for (e = from + 1; e < free; e++) if (server[e] == k && crosses(e)) free = e
    for (e = from + 1; e <= events; e++) if (e in down_since && server[e] == k && down_since[e] < free) free = down_since[e]
    if (8 + 5.5 * length(s) < x_of(free) - x_of(from)) text(x_of(from) + 5, y + 12, "state", s)
}
function draw_entries(y, from, to, low, high, kind,   x, w, entries, h) {
    x = x_of(from); w = x_of(to) - x; entries = high - low
    if (low < bottom) low = bottom
    h = (high - low) * unit; y += band - (low - bottom) * unit
    if (h > 0 && w > 0) rect(x, y - h, w, h, colour[kind])
    if (h >= 10 && w > 2 + 6 * length(entries)) text(x + 4, y - 3, "count " kind, entries)
}
function draw_down(y, from, to) {
    if (from < first) from = first
    if (to > stop) to = stop
    if (from < to) rect(x_of(from), y, x_of(to) - x_of(from), band, down_fill)
}

# The depot k has now[k], whites[k], greens[k] and reds[k] before this strip, and behind it what its events left.
function draw_band(k, y,   e, s, w, g, r, since, since_white, since_red) {
    s = now[k]; since = first
    for (e = first; e <= last; e++) if (server[e] == k && state[e] != s) { draw_state(k, y, since, e, s); s = state[e]; since = e }
    draw_state(k, y, since, stop, s); now[k] = s
    w = whites[k]; g = greens[k]; r = reds[k]; since = since_white = since_red = first
    for (e = first; e <= last; e++) if (server[e] == k) {
        if (green[e] != g || red[e] != r) { draw_entries(y, since_red, e, g, g + r, "red"); since_red = e }
        if (green[e] != g || white[e] != w) { draw_entries(y, since, e, w, g, "green"); since = e }
        if (white[e] != w) { draw_entries(y, since_white, e, 0, w, "white"); since_white = e }
        w = white[e]; g = green[e]; r = red[e]
    }
    draw_entries(y, since_white, stop, 0, w, "white"); draw_entries(y, since, stop, w, g, "green"); draw_entries(y, since_red, stop, g, g + r, "red")
    whites[k] = w; greens[k] = g; reds[k] = r
    for (e = first; e <= events; e++) if (e in down_since && server[e] == k) draw_down(y, down_since[e], e)
}

# A strip: an axis with numbers of events, and a band for each depot. Gives its lower end.
function draw_strip(y,   e, k, x) {
    text(6, y, "axis", "event")
    for (e = first; e <= last; e++) if (e % 10 == 0 || e == first && (10 - e % 10) * step > 26) {
        text(x_of(e) + 2, y, "axis", e); line(x_of(e), y - 8, y + 4, "axis")
    }
    for (k = 0; k < n; k++) {
        y += 10 + row * arrange(k, label)
        text(6, y + band / 2 + 4, "depot", "depot " k)
        draw_band(k, y); draw_above(y)
        x = x_of(stop) + 6
        if (bottom) text(6, y + band - 2, "axis", "above " bottom)
        if (last == final) {
            text(x, y + band - ("white" in seen ? 32 : 18), "end", greens[k] " green"); text(x, y + band - 4, "end", reds[k] " red")
            if ("white" in seen) text(x, y + band - 18, "end", "(" whites[k] " white)")
        }
        y += band
        e = arrange(k, below); draw_below(y); y += row * e + 6
    }
    return y
}

# ---- legend

# Room for an item of this width: its x, in the row whose base is `base`.
function item(w,   x) { if (next_x + w > page) { next_x = 6; base += 18 } x = next_x; next_x += w; return x }
function swatch(f, s,   x) {
    x = item(34 + 5.9 * length(s))
    put(sprintf("<rect x=\"%.1f\" y=\"%.1f\" width=\"13\" height=\"13\" fill=\"%s\" stroke=\"#999\"/>", int(x) + 0.5, base - 10.5, f))
    text(x + 18, base, "legend", s)
}
function sample(kind, s, t,   x) {
    if (!(kind in seen)) return
    x = item(30 + letter * letters(s) + 5.9 * length(t))
    line(x + 4, base - 11, base + 2, kind)
    if (kind == "request") triangle(x + 4, base + 3)
    text(x + 10, base, kind, s); text(x + 14 + letter * letters(s), base, "legend", t)
}
function legend(   i, s) {
    next_x = 6; base = 18
    for (i = 1; i <= states; i++) { s = state_named[i]; if (s in seen) swatch(fill[s], s ": " says[s]) }
    next_x = page
    swatch(colour["green"], "green entries: place agreed")
    if ("white" in seen) swatch(colour["white"], "the white ones of them: known to be green at all depots")
    swatch(colour["red"], "red entries: known, no agreed place yet")
    if ("recovery" in seen) swatch(down_fill, "crashed in here")
    next_x = page
    sample("regular", "4 {0,1}", "configuration 4 of depots 0 and 1"); sample("transitional", "{0,1}", "transitional configuration")
    sample("request", "P1", "request"); sample("refused", "&#215;5", "refused 5")
    sample("recovery", "recovery", "from the store"); sample("primary", "primary 2", "formed here")
    sample("meeting", "3 States, 3 CPCs", "delivered in the configuration above")
    return base
}

function head(w, h) {
    printf "<svg xmlns=\"http://www.w3.org/2000/svg\" width=\"%d\" height=\"%d\" viewBox=\"0 0 %d %d\" role=\"img\">\n", w, h, w, h
    printf "<title>%s run of %d events at %d depots</title>\n<style>\n", (drawn < events ? "Events " start " to " final " of a" : "A"), events, n
    print "text { font: 11px sans-serif; fill: #222 } path { fill: none } rect { shape-rendering: crispEdges }"
    print ".depot { font-weight: bold; font-size: 13px } .state { fill: #555; font-size: 10px }"
    print ".count { fill: white; font-weight: bold; font-size: 10px } text.white { fill: #14602a }"
    print "text.regular { font-weight: bold } path.regular { stroke: #222; stroke-width: 1.5 } .axis { fill: #888; font-size: 9px; stroke-width: 0 }"
    print "path.axis { stroke: #bbb; stroke-width: 1 } text.transitional { fill: #666 } path.transitional { stroke: #666; stroke-dasharray: 3 2 }"
    print "text.request { fill: #1f4e9c } path.request { stroke: #1f4e9c } path.triangle { fill: #1f4e9c }"
    print "text.recovery, text.refused { fill: #b00020 } path.recovery { stroke: #b00020; stroke-width: 2 } path.refused { stroke: #b00020 }"
    print "text.primary { fill: #14602a } path.primary { stroke: #14602a; stroke-width: 1.5 } text.meeting { fill: #666 } path.meeting { stroke: #999 }"
    print "</style>\n<defs><pattern id=\"down\" width=\"6\" height=\"6\" patternUnits=\"userSpaceOnUse\">"
    print "<path style=\"stroke: #b00020\" d=\"M0 6L6 0\"/></pattern></defs>\n<rect width=\"100%\" height=\"100%\" fill=\"white\"/>"
}

END {
    if (failed) exit 1
    read_run()
    read_start()
    drawn = final - start + 1
    strips = int((drawn + most_events - 1) / most_events); per_strip = int((drawn + strips - 1) / strips)
    step = (page - left - right) / (per_strip + tail); if (step > most_step) step = most_step
    unit = most_bar / (most ? most : 1); if (unit > most_unit) unit = most_unit
    band = 18 + unit * (most > 2 ? most : 3)
    reach = page; y = legend() + 6
    for (first = start; first <= final; first += per_strip) {
        last = first + per_strip - 1 < final ? first + per_strip - 1 : final
        stop = last + 1 + (last == final ? tail : 0)
        y = draw_strip(y + 22)
    }
    head(int(reach + 0.9), y + 4)
    for (i = 1; i <= outs; i++) print out[i]
    print "</svg>"
}
