# The lists of crates/rows/specs/Lists.antt, computed at a code. A definition is read into a tree: kind[n] is a leaf's word, an
# operator or APPLY, and branch[n, k] its parts, of which an application's first, number 0, is the function.

BEGIN { APPLY = "apply" }

part == "lists" { sub(/--.*/, "") }
part == "lists" && /^(use |abbrev )/ { next }
part == "lists" && /^[a-z]/ { keep_definition() }
part == "lists" { definition = definition " " $0 }

# Keeps the definition that was read last, by its name: parameters, and the tree of what stands behind the =. one_of has two
# clauses and stands below.
function keep_definition(   own) {
    gsub(/∷/, " : ", definition)
    gsub(/[()]/, " & ", definition)
    words = split(definition, word, " ")
    definition = ""
    if (words == 0) return
    own = word[1]
    for (at = 2; word[at] != "=" && at < words; at++)
        parameter[own, at - 1] = word[at]
    parameters[own] = at - 2
    at++
    if (own != "one_of") body[own] = tree()
}

function new_node(text) {
    kind[++nodes] = text
    return nodes
}

function tree(   left, n) {
    left = application()
    if (at > words || word[at] !~ /^[:\/%]$/) return left
    n = new_node(word[at++])
    branch[n, 0] = left
    branch[n, 1] = tree()
    return n
}

function application(   head, n, k) {
    head = atom()
    if (no_atom()) return head
    n = new_node(APPLY)
    branch[n, 0] = head
    for (k = 1; !no_atom(); k++)
        branch[n, k] = atom()
    branches[n] = k - 1
    return n
}

function no_atom() {
    return at > words || word[at] ~ /^[):\/%]$/
}

function atom(   n) {
    if (word[at] != "(") return new_node(word[at++])
    at++
    n = tree()
    at++
    return n
}

# A tree's value, with the parameters of the frame.
function value(n, frame) {
    if (kind[n] == APPLY) return applied(n, frame)
    if (kind[n] == "/") return int(value(branch[n, 0], frame) / value(branch[n, 1], frame))
    if (kind[n] == "%") return value(branch[n, 0], frame) % value(branch[n, 1], frame)
    if ((frame, kind[n]) in bound) return bound[frame, kind[n]]
    if (kind[n] ~ /^0x/) return from_hex(substr(kind[n], 3))
    if (kind[n] ~ /^[0-9]+$/) return kind[n] + 0
    if (kind[n] in body) return kind[n]
    stop("crates/rows/specs/Lists.antt: what is '" kind[n] "'?")
}

function applied(n, frame,   called, x, y) {
    called = kind[branch[n, 0]]
    x = branch[n, 1]
    y = branch[n, 2]
    if (called == "either") return value(x, frame) || value(y, frame)
    if (called == "both") return value(x, frame) && value(y, frame)
    if (called == "eqb") return value(x, frame) == value(y, frame)
    if (called == "ltb") return value(x, frame) < value(y, frame)
    if (called == "leb") return value(x, frame) <= value(y, frame)
    if (called == "one_of") return one_of(x, value(y, frame), frame)
    if ((frame, called) in bound) called = bound[frame, called]
    return call(called, n, frame)
}

function one_of(list, sought, frame) {
    for (; kind[list] == ":"; list = branch[list, 1])
        if (value(branch[list, 0], frame) == sought) return 1
    return 0
}

function call(called, n, frame,   given, k) {
    if (!(called in body) || parameters[called] != branches[n])
        stop("crates/rows/specs/Lists.antt: what is '" called "'?")
    for (k = 1; k <= branches[n]; k++)
        given[k] = value(branch[n, k], frame)
    for (k = 1; k <= branches[n]; k++)
        bound[frame + 1, parameter[called, k]] = given[k]
    return value(body[called], frame + 1)
}

# Whether a code is in a list that goes by first byte and second byte, or by first byte and nibbles.
function listed(list, code) {
    if (!(list in body))
        stop("crates/rows/specs/Lists.antt has no list '" list "'")
    bound[1, parameter[list, 1]] = from_hex(substr(code, 1, 2))
    if (parameters[list] == 2)
        bound[1, parameter[list, 2]] = from_hex(substr(code, 3, 2))
    else {
        bound[1, parameter[list, 2]] = from_hex(substr(code, 3, 1))
        bound[1, parameter[list, 3]] = from_hex(substr(code, 4, 1))
    }
    return value(body[list], 1)
}
