# The maps that are drawn. A table of docs/manual whose codes go by one rule has a line for each first byte: those of one size share a
# map. Every other first byte has its own.

part == "tables" && FNR > 1 {
    size = $2
    sub(/^[^.]*/, "", size)
    rule_of[$1] = FILENAME size
}

# The first bytes come in the order of the manual's list.
function add_first(byte,   rule, map) {
    first_byte[++FIRSTS] = byte
    rule = (byte in rule_of) ? rule_of[byte] : byte
    if (!(rule in map_of)) map_of[rule] = ++MAPS
    map = map_of[rule]
    member[map, ++members[map]] = byte
}

function is_shared(map) {
    return members[map] > 1
}

# A cell of a map stands for a code of each of its first bytes: they are alike but for the mnemonic.
function check_maps(   map, k, high, low) {
    for (map = 1; map <= MAPS; map++)
        for (k = 2; k <= members[map]; k++)
            for (high = 0; high < 16; high++)
                for (low = 0; low < 16; low++)
                    check_alike(code_at(member[map, 1], high, low), code_at(member[map, k], high, low))
}

function check_alike(code, other) {
    if (class_of[code] != class_of[other] || tip_behind(code) != tip_behind(other))
        stop(spaced(code) " and " spaced(other) " share a cell, and differ")
}
