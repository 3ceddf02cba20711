# What is said of a code: its mnemonic, and the text that is shown when a pointer rests on it.

BEGIN { BY_CONDITION = "BMcnd" }

function spaced(code) {
    return substr(code, 1, 2) " " substr(code, 3, 2)
}

function suffix_text(letter) {
    return letter ~ /[BWLA]/ ? "." letter : ""
}

function mnemonic(code) {
    return code in named_behind ? BY_CONDITION : name("Opcode", from_hex(substr(numbers_of[code], 1, 2)))
}

# The size that the opcode carries, else, where both say the same, the manual's.
function size_text(code,   carried) {
    carried = name("Size", substr(numbers_of[code], 3, 1) + 0)
    return carried == "None" && class_of[code] == 1 ? manual_suffix(code) : suffix_text(carried)
}

# A number is shown if it is part of the code, so if no bytes are behind it.
function operand_text(code, place,   operand, digits) {
    operand = name("Operand", from_hex(substr(numbers_of[code], 4 + 2 * place, 2)))
    if (operand == "Nothing") return ""
    digits = length_of[code] > 2 ? 0 : operand == "Imm4" ? 1 : operand ~ /^(Imm8|RegList)$/ ? 2 : 0
    return " " operand (digits ? "=" substr(imm_wide_of[code], 9 - digits) : "")
}

function tip(code) {
    return spaced(code) " " (end_of(code) == 0 ? mnemonic(code) : "") tip_behind(code)
}

# What stands behind the mnemonic.
function tip_behind(code,   class) {
    class = class_of[code]
    if (class == 6) return "refused with " end_of(code)
    if (class == 5) return "refused with " end_of(code) "; manual: " manual_text(code)
    if (class == 4) return decoded_behind(code) ", marked; manual: empty"
    if (class == 3) return decoded_behind(code) ", marked; manual: " manual_text(code)
    if (class == 2) return decoded_behind(code) "; manual: empty"
    return decoded_behind(code)
}

function decoded_behind(code) {
    return size_text(code) operand_text(code, 0) operand_text(code, 1) ", " length_of[code] " bytes"
}

# The mnemonic of all accepted codes of a first byte's line, dots if there are several.
function line_label(first, high,   low, code, label) {
    for (low = 0; low < 16; low++) {
        code = code_at(first, high, low)
        if (end_of(code) == 0) {
            if (label != "" && label != mnemonic(code)) return "..."
            label = mnemonic(code)
        }
    }
    return label
}
