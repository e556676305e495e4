# Draws the passes left at hops 0 to 255, a line of two digits each, as a staircase in one SVG.

# Where a hop begins, and where a number of passes lies in the picture.
function across(hop) { return LEFT + hop / HOPS * WIDTH }
function down(number) { return TOP + (HIGH - number) / (HIGH - LOW) * HEIGHT }

# Puts words at a place.
function text(x, y, anchor, size, words) {
    printf "<text x=\"%.1f\" y=\"%.1f\" text-anchor=\"%s\" font-size=\"%d\">%s</text>\n", x, y, anchor, size, words
}

# The hop at which a frame is held where the chosen hop is below its own.
function held(hop,    larger) {
    larger = int((HOPS - 1 - hop) / 2)
    return hop + (larger > 1 ? larger : 1)
}
# Stops at an answer that isn't what the rule gives.
function hold_to_rule(    hop, wanted) {
    for (hop = 0; hop < HOPS; hop++) {
        wanted = hop == HOPS - 1 ? 0 : 1 + passes[held(hop)]
        if (NR != HOPS || answer[hop] != sprintf("%02X", wanted)) {
            printf "%d answers; to hop %d: %s\n", NR, hop, answer[hop] > "/dev/stderr"
            exit 1
        }
    }
}

# The scale of passes at the left, and that of hops below.
function axes(    n) {
    printf "<rect class=\"frame\" x=\"%d\" y=\"%d\" width=\"%d\" height=\"%d\"/>\n", LEFT, TOP, WIDTH, HEIGHT
    for (n = 0; n <= passes[0]; n++) {
        printf "<path class=\"grid\" d=\"M%d %.1fh%d\"/>\n", LEFT, down(n), WIDTH
        text(LEFT - 6, down(n) + 4, "end", 12, n)
    }
    for (n = 0; n < HOPS; n += 32) {
        printf "<path class=\"grid\" d=\"M%.1f %dv%d\"/>\n", across(n), TOP, HEIGHT
        text(across(n), TOP + HEIGHT + 16, "middle", 12, n)
    }
    text(across(HOPS), TOP + HEIGHT + 16, "end", 12, HOPS - 1)
    text(LEFT + WIDTH / 2, TOP + HEIGHT + 34, "middle", 12, "hop of the frame")
    printf "<text transform=\"translate(16 %.1f) rotate(-90)\" text-anchor=\"middle\" font-size=\"12\">passes left</text>\n", TOP + HEIGHT / 2
}

# The line over all hops, each as wide as the others.
function staircase(    hop) {
    printf "<path class=\"steps\" d=\"M%.1f %.1f", across(0), down(passes[0])
    for (hop = 1; hop < HOPS; hop++)
        if (passes[hop] != passes[hop - 1]) printf "H%.1fV%.1f", across(hop), down(passes[hop])
    printf "H%.1f\"/>\n", across(HOPS)
}
# The name of the step that begins at a hop.
function name_of(hop,    last) {
    last = hop
    while (last + 1 < HOPS && passes[last + 1] == passes[hop]) last++
    if (hop == 0) return passes[hop] " up to hop " last
    return passes[hop] (last > hop ? " from " : " at ") hop
}
# The names of all steps, each before its step.
function labels(    hop) {
    text(across(0) + 8, down(passes[0]) - 6, "start", 12, name_of(0))
    for (hop = 1; hop < HOPS; hop++)
        if (passes[hop] != passes[hop - 1]) text(across(hop) - 8, down(passes[hop]) - 3, "end", 12, name_of(hop))
}

{ answer[NR - 1] = $0; passes[NR - 1] = index("0123456789", substr($0, 2)) - 1 }

END {
    HOPS = 256; LEFT = 52; WIDTH = 848; TOP = 44; HEIGHT = 300; LOW = -0.4; HIGH = 9.8
    hold_to_rule()
    print "<svg xmlns=\"http://www.w3.org/2000/svg\" viewBox=\"0 0 920 390\" font-family=\"sans-serif\" fill=\"#222\">"
    print "<title>The passes left at each hop</title>"
    print "<desc>How many stations can still take a frame of a hop where each has a chosen hop below the frame&apos;s, as replay answers it for hops 0 to 255; by bench/passes.</desc>"
    print "<style>path{fill:none}.frame{fill:#fff;stroke:#888}.grid{stroke:#ddd}.steps{stroke:#1f5fa8;stroke-width:2.2}</style>"
    print "<rect width=\"920\" height=\"390\" fill=\"#fff\"/>"
    text(LEFT, 26, "start", 16, "Passes left: how many stations with a chosen hop below the frame&apos;s can still take it")
    axes()
    staircase()
    labels()
    print "</svg>"
}
