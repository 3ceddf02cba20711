# The codes, in their order, and the course of the whole. A code is written as four digits: 740F.

BEGIN { DIGITS = "0123456789ABCDEF" }

END {
    if (stopped) exit 2
    keep_definition()
    classify()
    check_counts()
    check_maps()
    if (classes_only) print_classes()
    else draw()
}

# END runs after an exit elsewhere, and must do nothing then.
function stop(message) {
    print "codes-svg: " message > "/dev/stderr"
    stopped = 1
    exit 2
}

function digit(number) {
    return substr(DIGITS, number + 1, 1)
}

function from_hex(text,   i, number) {
    for (i = 1; i <= length(text); i++)
        number = 16 * number + index(DIGITS, substr(text, i, 1)) - 1
    return number + 0
}

# high and low are the second byte's digits
function code_at(first, high, low) {
    return first digit(high) digit(low)
}
