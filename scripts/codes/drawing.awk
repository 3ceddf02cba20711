# The picture. Colour says what the decoder does; a full cell has a meaning in the manual, a hollow one has none.

BEGIN {
    PITCH = 15 # of cells
    GRID = 16 * PITCH
    MARGIN = 36
    LABELS = 16 # left of a grid
    NAMES = 44 # right of it
    GAP = 18 # between maps that stand side by side
    ABOVE = 40 # a map's heading and labels
    MORE = 20 # above a map that first bytes share
    NAMED = 5 # first bytes in a line of its heading
    BELOW = 24
    ACROSS = 4
    MAPS_TOP = 260
    WIDTH = 2 * MARGIN + ACROSS * (LABELS + GRID + NAMES + GAP) - GAP
}

function draw(   map) {
    HEIGHT = map_top(MAPS) + ABOVE + GRID + MARGIN
    open_picture()
    define_cells()
    draw_title()
    draw_legend()
    for (map = 1; map <= MAPS; map++)
        draw_map(map, MARGIN + (map - 1) % ACROSS * (LABELS + GRID + NAMES + GAP), map_top(map))
    print "</svg>"
}

function map_top(map) {
    return MAPS_TOP + int((map - 1) / ACROSS) * (ABOVE + GRID + BELOW) + is_shared(map) * MORE
}

function open_picture() {
    print "<svg xmlns=\"http://www.w3.org/2000/svg\" xmlns:xlink=\"http://www.w3.org/1999/xlink\""
    print "width=\"" WIDTH "\" height=\"" HEIGHT "\" viewBox=\"0 0 " WIDTH " " HEIGHT "\">"
    print "<title>" title() "</title>"
    print "<style>"
    print "text { font: 12px 'Helvetica Neue', Helvetica, Arial, 'DejaVu Sans', sans-serif; fill: #222 }"
    print ".title { font-size: 22px; font-weight: bold }"
    print ".byte { font-size: 16px; font-weight: bold }"
    print ".label { font: 11px Menlo, Consolas, 'DejaVu Sans Mono', monospace; fill: #555 }"
    print ".strong { font-weight: bold }"
    print ".small { font-size: 10px; fill: #555 }"
    print ".middle { text-anchor: middle }"
    print ".end { text-anchor: end }"
    print "</style>"
    print "<rect width=\"" WIDTH "\" height=\"" HEIGHT "\" fill=\"#fff\"/>"
}

function define_cells() {
    print "<defs>"
    full_cell(1, "#0072b2", "")
    hollow_cell(2, "#0072b2", 3, "")
    full_cell(3, "#e69f00", "")
    hollow_cell(4, "#e69f00", 3, "")
    full_cell(5, "#333", cross("#fff"))
    hollow_cell(6, "#ccc", 1, cross("#888"))
    print "</defs>"
}

function full_cell(class, colour, sign) {
    print "<g id=\"c" class "\"><rect x=\"1\" y=\"1\" width=\"13\" height=\"13\" fill=\"" colour "\"/>" sign "</g>"
}

function hollow_cell(class, colour, edge, sign) {
    print "<g id=\"c" class "\"><rect x=\"" 1 + edge / 2 "\" y=\"" 1 + edge / 2 "\" width=\"" 13 - edge "\" height=\"" 13 - edge \
        "\" fill=\"#fff\" stroke=\"" colour "\" stroke-width=\"" edge "\"/>" sign "</g>"
}

function cross(colour) {
    return "<path d=\"M5 5l5 5m0-5l-5 5\" stroke=\"" colour "\" stroke-width=\"1.2\"/>"
}

function write(x, y, style, said) {
    print "<text x=\"" x "\" y=\"" y "\"" (style == "" ? "" : " class=\"" style "\"") ">" said "</text>"
}

function cell(class, x, y) {
    print "<use xlink:href=\"#c" class "\" x=\"" x "\" y=\"" y "\"/>"
}

function draw_map(map, x, y,   i) {
    print "<g transform=\"translate(" x + LABELS " " y + ABOVE ")\">"
    if (is_shared(map)) draw_heading(map)
    else write(0, -22, "byte", member[map, 1])
    write(GRID, -22, "small end", (is_shared(map) ? "each " : "") sums_text(member[map, 1]))
    for (i = 0; i < 16; i++)
        write(i * PITCH + PITCH / 2, -4, "label middle", digit(i))
    for (i = 0; i < 16; i++)
        draw_line(map, i)
    print "</g>"
}

function sums_text(first) {
    return counted(first, "12") " unmarked, " counted(first, "34") " marked, " counted(first, "56") " refused"
}

# Said of a code of the first of the bytes that share a map.
function others_text(map) {
    return members[map] == 1 ? "" : members[map] == 2 ? "; " member[map, 2] " alike" : "; the others alike"
}

# The first bytes that share a map, each with its mnemonic.
function draw_heading(map,   k, said, y) {
    y = -38 - 16 * int((members[map] - 1) / NAMED)
    for (k = 1; k <= members[map]; k++) {
        said = said (said == "" ? "" : ", ") member[map, k] " " line_label(member[map, k], 0)
        if (k % NAMED == 0 || k == members[map]) {
            write(0, y, "strong", said (k == members[map] ? "" : ","))
            said = ""
            y += 16
        }
    }
}

function draw_line(map, high,   low, first, code, label) {
    first = member[map, 1]
    print "<g transform=\"translate(0 " high * PITCH ")\">"
    write(-4, PITCH - 4, "label end", digit(high))
    for (low = 0; low < 16; low++) {
        code = code_at(first, high, low)
        print "<use xlink:href=\"#c" class_of[code] "\" x=\"" low * PITCH "\"><title>" tip(code) others_text(map) "</title></use>"
    }
    label = is_shared(map) ? "" : line_label(first, high)
    if (label != "")
        write(GRID + 4, PITCH - 4, "label", label)
    print "</g>"
}
