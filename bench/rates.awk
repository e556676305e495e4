# Draws two files of points (ms since a clock's first reading, by how many ppm its rate is off) as panels.awk does, each point
# joined to the next, with the points' root mean square.

# The rates one after the other.
function course(    i) {
    printf "<path class=\"course\" d=\""
    for (i = 1; i <= count[panel]; i++) printf "%s%.1f %.1f", (i == 1 ? "M" : "L"), across(place[panel, i] / 1000), down(off[panel, i])
    print "\"/>"
}

# The root mean square of the points as lines, and in words with the largest.
function spread(    i, size, sum, largest, root) {
    for (i = 1; i <= count[panel]; i++) {
        size = off[panel, i] < 0 ? -off[panel, i] : off[panel, i]
        if (size > largest) largest = size
        sum += size * size
    }
    root = sqrt(sum / count[panel])
    level(root, "root"); level(-root, "root")
    text(LEFT[panel] + 6, TOP + HEIGHT - 8, "start", 12, sprintf("root mean square %.3f ppm, largest %.3f ppm", root, largest))
}

END {
    FROM = 0; TO = 2; STEP = 0.5; TALL = 2; LAST_ERROR = 1.5; ERROR_STEP = 0.5
    TITLE[1] = "two samples kept, before C-20"; TITLE[2] = "three samples kept, from C-20 on"
    begin("How far a clock&apos;s rate is off where the latch of its readings is off by up to 8 ns",
        count[1] " rates in each panel, by bench/rates: what D says less the true rate, in ppm over the seconds since the first of readings 10 ms apart.",
        ".course{stroke:#1f5fa8;stroke-width:1;stroke-linejoin:round;opacity:.8}.root{stroke:#e8590c;stroke-width:2.5}",
        "the rate that Drift says less the true one, ppm; a clock read each 10 ms by a latch off by up to 8 ns; orange lines are the root mean square")
    for (panel = 1; panel <= 2; panel++) {
        text(LEFT[panel] + WIDTH / 2, TOP - 10, "middle", 15, TITLE[panel])
        axes("seconds since the first reading")
        course()
        bounds(sprintf("at most %.1f ppm", BOUND[panel]))
        spread()
    }
    print "</svg>"
}
