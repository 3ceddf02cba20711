# What the stored answers say of each code; oracle/README.md has the form of a line. Bytes that ran out say nothing of a code.

part == "answers" && /^[0-8]/ {
    if (NF != 8 || length($0) != 48)
        stop("crates/replay/stdin, line " FNR ": not a line of the stored list")
    if ($1 >= 2 && $3 == 0) accept(substr($2, 1, 4), $5, $6, $8)
    if ($1 >= 2 && ($3 == 2 || $3 == 3)) refuse(substr($2, 1, 4), $3)
}

# numbers are those of the opcode, its size and the operands: OOSPPQQUU. They are compared as text, since 5E1 is also a decimal number.
function accept(code, numbers, imm_wide, length_said) {
    if ((code in length_of) && length_of[code] != length_said)
        stop("the stored answers give " spaced(code) " two lengths")
    if ((code in numbers_of) && numbers_of[code] "" != numbers "")
        named_behind[code] = 1
    length_of[code] = length_said
    numbers_of[code] = numbers
    imm_wide_of[code] = imm_wide
}

function refuse(code, refusal) {
    if ((code in refusal_of) && refusal_of[code] != refusal)
        refused_twice[code] = 1
    refusal_of[code] = refusal
}

# 0, 2 or 3. A code is accepted if it is with some bytes behind it: a bad condition byte does not refuse the code.
function end_of(code) {
    if (code in length_of) return 0
    if (!(code in refusal_of))
        stop("crates/replay/stdin has no answer for " spaced(code))
    if (code in refused_twice)
        stop("the stored answers refuse " spaced(code) " with 2 and with 3")
    return refusal_of[code]
}
