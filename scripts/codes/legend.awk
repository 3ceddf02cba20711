# The title, and the legend: the cells of each class with their counts.

BEGIN {
    MEANT = 326 # the right ends of the legend's columns
    EMPTY = 446
    BOTH = 510
}

function title() {
    return "What the decoder does with each of the " thousands(counted(ALL, "123456")) " codes"
}

function draw_title() {
    write(MARGIN, MARGIN + 18, "title", title())
    write(MARGIN, MARGIN + 42, "", "A map for each first byte, or several alike: the second byte's high digit goes down, its low one across. " \
        "Right of a line stands the mnemonic of its accepted codes, or dots for several.")
    write(MARGIN, MARGIN + 60, "", "Colour and cross say what the decoder does. " \
        "A full cell has a meaning in the manual, a hollow one has none. " \
        "A pointer at rest on a code shows its instruction and length.")
}

# Three lines, and the sums of each line and column.
function draw_legend(   y) {
    y = 130
    write(MARGIN, y, "strong", "decoder")
    write(MEANT, y, "strong end", "manual: meaning")
    write(EMPTY, y, "strong end", "manual: empty")
    write(BOTH, y, "strong end", "all")
    legend_line(y + 23, "accepted, unmarked", 1, \
        "Decoded, and as in the manual where that gives the code a meaning.")
    legend_line(y + 44, "accepted, marked", 3, \
        "Decoded, but the manual reads the code otherwise, or its row is marked as a whole. Never encoded.")
    legend_line(y + 65, "refused", 5, \
        "No instruction, whatever bytes follow.")
    sums(y + 90, "all", "135", "246", \
        "The proofs count the same. docs/DIFFERENCES.md lists the differences, and says what is known of the manual.")
    print "<path d=\"M" MARGIN " " y + 73.5 "H" BOTH "\" stroke=\"#999\"/>"
}

function legend_line(y, said, class, explained) {
    cell(class, MEANT - 70, y - 11)
    cell(class + 1, EMPTY - 70, y - 11)
    sums(y, said, class "", class + 1 "", explained)
}

function sums(y, said, meant, empty, explained) {
    write(MARGIN, y, "strong", said)
    write(MEANT, y, "end", thousands(counted(ALL, meant)))
    write(EMPTY, y, "end", thousands(counted(ALL, empty)))
    write(BOTH, y, "end", thousands(counted(ALL, meant empty)))
    write(BOTH + 32, y, "", explained)
}

function thousands(number) {
    return number < 1000 ? number : int(number / 1000) "," substr(number, length(number) - 2)
}
