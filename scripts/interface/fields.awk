# Computes with the definitions of Same.antt, read as text: `field_of`, `shared`, `field0`, `field1`, `value_of`, and what `key` takes of them.
# What is not written as expected here stops it: then this is to be written anew, with a look at bindings/rust/src/instruction.rs.

function refuse(what) {
    print "crates/record/specs/Same.antt: scripts/interface/fields.awk cannot read " what > "/dev/stderr"
    refused = 1
    exit 1
}

# Lines "NUMBER NAME".
NR == FNR { name[names++] = $2; known[$2]; next }

{ gsub(/;$/, "") }

# A definition's lines go up to an empty one.
/^field_of a =/ { on = "field_of" }
/^[a-z]+_names =/ { on = $1 }
/^$/ { on = "" }
on != "" { text[on] = text[on] " " $0 }

$1 == "shared" && $5 == "=" && NF == 6 { clauses++; for (k = 2; k <= 6; k++) clause[clauses, k] = $k }
$1 == "field0" && $2 == "a" && $3 == "b" { rule[0] = $0 }
$1 == "field1" && $2 == "a" && $3 == "b" { rule[1] = $0 }
$1 == "value_of" && $4 == "=" { letter[$2] = $5 == "0" ? "-" : substr($5, 3, 1) }
$1 ~ /^number[0-2]$/ && $2 == "=" { key[substr($1, 7)] = $0 }

# The lists of `field_of`, each with the field for its names; what is left at the end is the field of all others.
function read_field_lists(  list, count, k, part, field, field_text, called) {
    field_text = text["field_of"]
    for (called in text) {
        list = text[called]
        sub(/^.*=/, "", list)
        sub("among " called " a", "among (" list ") a", field_text)
    }
    while (match(field_text, /among \([^)]*\) a\) [a-z]+/)) {
        list = substr(field_text, RSTART, RLENGTH)
        field_text = substr(field_text, RSTART + RLENGTH)
        field = list
        sub(/.* /, "", field)
        gsub(/^among \(|\).*$|∷|\[\]/, " ", list)
        count = split(list, part, " ")
        for (k = 1; k <= count; k++) {
            if (!(part[k] in known) || part[k] in field_of) refuse("field_of: " part[k])
            field_of[part[k]] = field
        }
    }
    gsub(/[) ]/, "", field_text)
    if (!(field_text in letter)) refuse("field_of")
    for (k = 0; k < names; k++) if (!(name[k] in field_of)) field_of[name[k]] = field_text
}

# `shared (field_of OWN) (field_of OTHER) SWITCH`, where SWITCH asks whether a is a certain operand, or whether it is not.
function read_rule(k,  part, count) {
    count = split(rule[k], part, /[ ()]+/)
    if (part[5] != "shared" || part[6] != "field_of" || part[8] != "field_of") refuse("field" k)
    own[k] = part[7]
    other[k] = part[9]
    negated[k] = part[10] == "pick"
    if (part[10 + negated[k]] != "same_name" || part[11 + negated[k]] != "a") refuse("field" k)
    if (negated[k] && (part[13 + negated[k]] != "false" || part[14 + negated[k]] != "true")) refuse("field" k)
    asked[k] = part[12 + negated[k]]
    if (!(asked[k] in known)) refuse("field" k)
}

# A word of a clause: the same word, or a variable.
function fits(word, value) {
    return word == value || !(word in letter) && word != "true" && word != "false"
}

# The first clause of `shared` that fits.
function shared(own_field, other_field, others,  k) {
    for (k = 1; k <= clauses; k++)
        if (fits(clause[k, 2], own_field) && fits(clause[k, 3], other_field) && fits(clause[k, 4], others))
            break
    if (!(clause[k, 6] in letter)) refuse("shared")
    return clause[k, 6]
}

function letter_of(k, a, b,  is_asked) {
    is_asked = a == asked[k]
    return letter[shared(field_of[own[k] == "a" ? a : b], field_of[other[k] == "a" ? a : b], is_asked != negated[k] ? "true" : "false")]
}

function check_key() {
    if (key[0] !~ /= value_of \(field0 r\.op0 r\.op1\) r$/) refuse("key: number0")
    if (key[1] !~ /= value_of \(field1 r\.op0 r\.op1\) r$/) refuse("key: number1")
    if (key[2] !~ /= value_of \(field_of r\.op2\) r$/) refuse("key: number2")
}

END {
    if (refused) exit 1
    check_key()
    read_field_lists()
    read_rule(0)
    read_rule(1)
    for (i = 0; i < names; i++) {
        row = name[i] " " letter[field_of[name[i]]]
        for (j = 0; j < names; j++) row = row " " letter_of(0, name[i], name[j]) letter_of(1, name[i], name[j])
        print row
    }
}
