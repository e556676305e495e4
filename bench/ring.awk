# Draws the held hop of each station's chosen clock over time as one SVG: above the whole course, below a part of it. A row has
# a station, the seconds since the grand master fell silent, and the hop from then on, or a dash where no clock is chosen.

# Where a time and a hop lie in the panel.
function across(seconds) { return LEFT + (seconds - FROM[panel]) / (TO[panel] - FROM[panel]) * WIDTH }
function down(hop) { return TOP[panel] + (HIGH[panel] - hop) / (HIGH[panel] - LOW[panel]) * HEIGHT[panel] }

# Puts words at a place.
function text(x, y, anchor, size, words) {
    printf "<text x=\"%.1f\" y=\"%.1f\" text-anchor=\"%s\" font-size=\"%d\">%s</text>\n", x, y, anchor, size, words
}
# Draws a line through the panel at a time, and one at a hop.
function upright(seconds, class) {
    printf "<path class=\"%s\" d=\"M%.1f %.1fv%d\"/>\n", class, across(seconds), TOP[panel], HEIGHT[panel]
}
function level(hop, class) {
    printf "<path class=\"%s\" d=\"M%.1f %.1fh%d\"/>\n", class, LEFT, down(hop), WIDTH
}
# Draws a box from a time to another over the whole height of the panel.
function box(from, to, class) {
    printf "<rect class=\"%s\" x=\"%.1f\" y=\"%.1f\" width=\"%.1f\" height=\"%d\"/>\n", class, across(from), TOP[panel], across(to) - across(from), HEIGHT[panel]
}

# The scale of hops at the left of a panel.
function hop_scale(    i, n, hops) {
    n = split(HOPS[panel], hops, " ")
    for (i = 1; i <= n; i++) {
        level(hops[i], "grid")
        text(LEFT - 6, down(hops[i]) + 4, "end", 12, hops[i])
    }
    printf "<text transform=\"translate(16 %.1f) rotate(-90)\" text-anchor=\"middle\" font-size=\"12\">held hop</text>\n", TOP[panel] + HEIGHT[panel] / 2
}
# The scale of time below a panel.
function time_scale(    i, seconds) {
    for (i = 0; i <= int((TO[panel] - FROM[panel]) / STEP[panel] + 0.5); i++) {
        seconds = FROM[panel] + i * STEP[panel]
        upright(seconds, "grid")
        text(across(seconds), TOP[panel] + HEIGHT[panel] + 16, "middle", 12, sprintf(SECONDS[panel], seconds))
    }
    text(LEFT + WIDTH / 2, TOP[panel] + HEIGHT[panel] + 34, "middle", 12, "seconds since the grand master fell silent")
}

# Goes on at a hop until a time, and from there to another hop; a dash is none.
function step(before, seconds, after) {
    if (before != "-") printf "H%.1f", across(seconds)
    if (before == "-" && after != "-") printf "M%.1f %.1f", across(seconds), down(after)
    if (before != "-" && after != "-") printf "V%.1f", down(after)
}
# The line of a station, as far as it lies in the panel.
function step_line(station,    i, seconds, before) {
    before = "-"
    printf "<path class=\"hops\" stroke=\"%s\" d=\"", COLOUR[station]
    for (i = 1; i <= count[station] && at[station, i] < TO[panel]; i++) {
        seconds = at[station, i]
        if (seconds < FROM[panel]) seconds = FROM[panel]
        if (i == count[station] || at[station, i + 1] > FROM[panel]) {
            step(before, seconds, held[station, i])
            before = held[station, i]
        }
    }
    step(before, TO[panel], "-")
    print "\"/>"
}
# A panel with its name, its scales and a line for each station.
function draw(    station) {
    text(LEFT, TOP[panel] - 10, "start", 14, NAME[panel])
    box(FROM[panel], TO[panel], "frame")
    hop_scale()
    time_scale()
    for (station = 1; station <= stations; station++) step_line(station)
}
# Puts words beside a time at the height of a hop.
function note(seconds, hop, anchor, words) {
    text(across(seconds) + (anchor == "end" ? -6 : 6), down(hop) + 4, anchor, 12, words)
}
# A line at the time of an event, and its name.
function mark(seconds, hop, anchor, words) {
    upright(seconds, "mark")
    note(seconds, hop, anchor, words)
}
# The colour of each station.
function legend(    station, y) {
    for (station = 1; station <= stations; station++) {
        y = TOP[panel] + 50 + 18 * station
        printf "<path class=\"key\" stroke=\"%s\" d=\"M%.1f %.1fh22\"/>\n", COLOUR[station], LEFT + 12, y - 4
        text(LEFT + 40, y, "start", 12, "station " station)
    }
}

# The last hop that a frame is taken with.
BEGIN { LAST_TAKEN = 254 }

{
    count[$1]++
    at[$1, count[$1]] = $2 + 0
    held[$1, count[$1]] = $3
    if ($1 > stations) stations = $1
    if ($3 != "-" && $3 < LAST_TAKEN) risen = $2 + 0
    last = $2 + 0
}

END {
    LEFT = 58; WIDTH = 842
    split("#0072b2 #d55e00 #009e73 #cc79a7 #e69f00 #56b4e9 #222222 #999999", COLOUR, " ")
    NAME[1] = "The whole course"; SECONDS[1] = "%.1f"; HOPS[1] = "0 64 128 192 255"
    FROM[1] = -0.5; TO[1] = int(2 * last + 1) / 2; STEP[1] = 0.5; LOW[1] = -8; HIGH[1] = 263; TOP[1] = 62; HEIGHT[1] = 290
    NAME[2] = "The grey part: a jump raises the chosen hop, so the other neighbour&apos;s next frame is held only one hop on"
    SECONDS[2] = "%.2f"; HOPS[2] = "60 80 100 120 140 160"
    FROM[2] = 1; TO[2] = 1.06; STEP[2] = 0.01; LOW[2] = 54; HIGH[2] = 176; TOP[2] = 430; HEIGHT[2] = 190
    print "<svg xmlns=\"http://www.w3.org/2000/svg\" viewBox=\"0 0 920 670\" font-family=\"sans-serif\" fill=\"#222\">"
    print "<title>The held hop of each station of a ring after its grand master fell silent</title>"
    printf "<desc>%d stations in a closed ring with the default timeout, by bench/ring: the held hop of the clock that each has chosen.</desc>\n", stations
    print "<style>path{fill:none}.frame{fill:#fff;stroke:#888}.grid{stroke:#ddd}.part{fill:#888;opacity:.35}.mark{stroke:#c00;stroke-dasharray:4 3}.hops{stroke-width:1.3;opacity:.85}.key{stroke-width:3}</style>"
    print "<rect width=\"920\" height=\"670\" fill=\"#fff\"/>"
    text(LEFT, 24, "start", 16, "A closed ring of " stations " stations: the held hop of the clock that each has chosen")
    panel = 1
    draw()
    box(FROM[2], TO[2], "part")
    mark(0, 240, "start", "the grand master falls silent")
    note(0, 16, "start", "one timeout")
    note(risen, 238, "start", "two more timeouts")
    mark(last, 32, "end", sprintf("after %.2f s nobody announces its clock", last))
    legend()
    panel = 2
    draw()
    print "</svg>"
}
