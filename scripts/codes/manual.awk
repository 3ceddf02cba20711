# The first bytes, and what the manual says of each code, packed as crates/manual/specs/Packed.antt says; 0 is an empty code.

part == "manual" && /^listed_?[0-9A-F][0-9A-F] =/ {
    page = substr($1, length($1) - 1)
    add_first(page)
    entries = 0
    next
}
part == "manual" && NF == 0 { page = "" }
part == "manual" && page != "" {
    for (i = 1; i <= NF; i++)
        if ($i ~ /^[0-9]/) {
            meaning[page digit(int(entries / 16)) digit(entries % 16)] = $i
            entries++
        }
}

function has_meaning(code) {
    if (!(code in meaning))
        stop("crates/manual/proofs/Listed.antt has no entry for " spaced(code))
    return meaning[code] != "0"
}

function manual_suffix(code,   parts) {
    split(meaning[code], parts, "_")
    return suffix_text(substr("-BWLA", parts[3] + 1, 1))
}

# No code means NOP: its number stands for the instruction that a condition byte names.
function manual_text(code,   parts, text) {
    split(meaning[code], parts, "_")
    text = parts[2] + 0 ? name("Opcode", parts[2] + 0) : BY_CONDITION
    return text manual_suffix(code) spot_text(parts[4]) spot_text(parts[5]) ", " parts[6] " bytes"
}

# An operand's digits: its kind, its name (two), where its number starts, the number's bytes, a number in the code (three).
function spot_text(spot,   sort, number) {
    sort = substr(spot, 1, 1)
    number = substr(spot, 6, 3) + 0
    if (sort == 0) return ""
    if (sort <= 2) return " " name("Operand", substr(spot, 2, 2) + 0)
    if (sort == 3) return " #" number
    if (sort == 4) return " #-" number
    if (sort == 5) return " C"
    if (sort == 6) return " PC"
    return " " substr("CDZSBOIU", number + 1, 1)
}
