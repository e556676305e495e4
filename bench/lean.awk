# Draws two files of points (a reading's distance in ms, how far it lies from the line in U) as panels.awk does, with the points'
# mean over the distance.

# A dot for each send.
function points(    i) {
    printf "<path class=\"points\" d=\""
    for (i = 1; i <= count[panel]; i++) printf "M%.1f %.1fh0", across(place[panel, i]), down(off[panel, i])
    print "\"/>"
}

# The mean of the points in each tenth of the panel.
function mean(    i, part, sum, many) {
    for (i = 1; i <= count[panel]; i++) {
        part = place[panel, i] < TO ? int((place[panel, i] - FROM) / (TO - FROM) * PARTS) : PARTS - 1
        sum[part] += off[panel, i]
        many[part]++
    }
    printf "<path class=\"mean\" d=\""
    for (part = 0; part < PARTS; part++)
        printf "%s%.1f %.1f", part ? "L" : "M", across((part + 0.5) / PARTS * (TO - FROM) + FROM), down(sum[part] / many[part])
    print "\"/>"
}

END {
    FROM = -500; TO = 500; STEP = 250; TALL = 20; LAST_ERROR = 16; ERROR_STEP = 8; PARTS = 10
    TITLE[1] = "rates rounded down, before C-15"; TITLE[2] = "rates rounded to the nearest, from C-15 on"
    begin("How far sent grand time lies from the exact line",
        count[1] " sends in each panel, by bench/lean: the difference in U over the distance of the reading from the newer sample.",
        ".points{stroke:#1f5fa8;stroke-width:2.2;stroke-linecap:round;opacity:.45}.mean{stroke:#e8590c;stroke-width:3}",
        "sent grand time less the exact line, U; the thick line is the mean of each tenth")
    for (panel = 1; panel <= 2; panel++) {
        text(LEFT[panel] + WIDTH / 2, TOP - 10, "middle", 15, TITLE[panel])
        axes("the reading after the newer sample, ms")
        points()
        bounds("less than " BOUND[panel] " U")
        mean()
    }
    print "</svg>"
}
