# A code's class: what the decoder does, and whether the manual gives the code a meaning.
#   1 accepted, meaning   3 marked, meaning   5 refused, meaning
#   2 accepted, empty     4 marked, empty     6 refused, empty

BEGIN { ALL = "all" }

function classify(   k, high, low) {
    for (k = 1; k <= FIRSTS; k++)
        for (high = 0; high < 16; high++)
            for (low = 0; low < 16; low++)
                classify_code(first_byte[k], code_at(first_byte[k], high, low))
}

function classify_code(first, code) {
    class_of[code] = judged(code)
    count[first, class_of[code]]++
    count[ALL, class_of[code]]++
    ending[end_of(code)]++
}

function judged(code,   class) {
    class = end_of(code) != 0 ? 5 : listed("starred", code) ? 3 : 1
    class += !has_meaning(code)
    agree(code, "unmeant_code", class == 2)
    agree(code, "refused_code", class == 5)
    return class
}

function agree(code, list, is) {
    if (listed(list, code) != is)
        stop(spaced(code) ": the list " list " and the stored answers do not agree")
}

# each code and its class, in no order
function print_classes(   code) {
    for (code in class_of) print code, class_of[code]
}
