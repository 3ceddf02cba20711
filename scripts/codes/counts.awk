# The counts that are proved, and the drawn ones compared with them.

part == "counts" { proofs = proofs " " $0 }

# the number behind "WHAT ≡"
function proved(what,   start) {
    what = what " ≡ "
    start = index(proofs, what)
    if (start == 0)
        stop("no proof counts '" what "'")
    return substr(proofs, start + length(what)) + 0
}

function hold(what, found, wanted) {
    if (found != wanted)
        stop(what ": " found ", and there should be " wanted)
}

function check_counts(   k, first) {
    for (k = 1; k <= FIRSTS; k++)
        hold("codes of " first_byte[k], counted(first_byte[k], "123456"), 256)
    for (first in rule_of)
        hold("codes of " first ", which has a line in docs/manual", counted(first, "123456"), 256)
    hold("accepted codes", counted(ALL, "1234"), proved("count_codes (ends 0)"))
    hold("marked codes", counted(ALL, "34"), proved("count_codes (λ a b. both (ends 0 a b) (marked_at a b))"))
    hold("codes refused with 2", ending[2], proved("count_codes (ends 2)"))
    hold("codes refused with 3", ending[3], proved("count_codes (ends 3)"))
    hold("codes with a meaning", counted(ALL, "135"), proved("meanings : count"))
    hold("unmarked codes without a meaning", counted(ALL, "2"), proved("count_codes (listed_in unmeant_code)"))
    hold("refused codes with a meaning", counted(ALL, "5"), proved("count_codes (listed_in refused_code)"))
}

# How many codes of a first byte, or all, are in these classes, a digit each.
function counted(first, classes,   i, sum) {
    for (i = 1; i <= length(classes); i++)
        sum += count[first, substr(classes, i, 1)]
    return sum + 0
}
