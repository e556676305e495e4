# What lean.awk and rates.awk share: two panels side by side in one SVG, with the same scales, of two files of points. Each panel
# has the bound of its landing as a line, above and below. A point is a place on the scale below and how far it is off.

# Where a place on the scale below and an error lie in the picture.
function across(x) { return LEFT[panel] + (x - FROM) / (TO - FROM) * WIDTH }
function down(error) { return TOP + (TALL - error) / (2 * TALL) * HEIGHT }

# Puts words at a place.
function text(x, y, anchor, size, words) {
    printf "<text x=\"%.1f\" y=\"%.1f\" text-anchor=\"%s\" font-size=\"%d\">%s</text>\n", x, y, anchor, size, words
}
# Draws a line across the panel at an error.
function level(error, class) {
    printf "<path class=\"%s\" d=\"M%.1f %.1fh%d\"/>\n", class, LEFT[panel], down(error), WIDTH
}

# Begins the picture, with what it is for those who don't see it, the style of its own lines, and words above the panels.
function begin(title, description, style, words) {
    print "<svg xmlns=\"http://www.w3.org/2000/svg\" viewBox=\"0 0 920 390\" font-family=\"sans-serif\" fill=\"#222\">"
    print "<title>" title "</title>"
    print "<desc>" description "</desc>"
    print "<style>path{fill:none}.frame{fill:#fff;stroke:#888}.grid{stroke:#ddd}.bound{stroke:#c00;stroke-width:1.5}.other{stroke:#c00;stroke-dasharray:2 4;opacity:.5}" style "</style>"
    print "<rect width=\"920\" height=\"390\" fill=\"#fff\"/>"
    text(LEFT[1] - 40, 16, "start", 12, words)
}

# The scales of a panel: errors at the left, places below, and the name of these.
function axes(name,    n) {
    printf "<rect class=\"frame\" x=\"%.1f\" y=\"%.1f\" width=\"%d\" height=\"%d\"/>\n", LEFT[panel], TOP, WIDTH, HEIGHT
    for (n = -LAST_ERROR; n <= LAST_ERROR; n += ERROR_STEP) {
        level(n, "grid")
        text(LEFT[panel] - 6, down(n) + 4, "end", 12, n)
    }
    for (n = FROM; n <= TO; n += STEP) {
        printf "<path class=\"grid\" d=\"M%.1f %.1fv%d\"/>\n", across(n), TOP, HEIGHT
        text(across(n), TOP + HEIGHT + 16, "middle", 12, n)
    }
    text(LEFT[panel] + WIDTH / 2, TOP + HEIGHT + 34, "middle", 12, name)
}

# The bound of this panel's landing, with words for it, and faintly the other one.
function bounds(words,    other) {
    other = BOUND[3 - panel]
    level(other, "other"); level(-other, "other")
    level(BOUND[panel], "bound"); level(-BOUND[panel], "bound")
    text(LEFT[panel] + WIDTH - 6, down(BOUND[panel]) - 4, "end", 12, words)
}

BEGIN {
    WIDTH = 400; HEIGHT = 300; TOP = 46; LEFT[1] = 46; LEFT[2] = 502
    BOUND[1] = bound_before; BOUND[2] = bound
}

FNR == 1 { panel++ }
{ count[panel]++; place[panel, FNR] = $1; off[panel, FNR] = $2 }
