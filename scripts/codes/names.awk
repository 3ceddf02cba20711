# The names of opcodes, sizes and operands: their numbers are their places in the record's enums.

part == "names" { sub(/\/\/.*/, "") }
part == "names" && /^pub enum / { enum = $3; variants = 0 }
part == "names" && enum != "" && /^ +[A-Za-z]/ {
    sub(/,.*/, "")
    name_of[enum, variants++] = $1
}
part == "names" && /^}/ { enum = "" }

function name(of, number) {
    if (!((of, number) in name_of))
        stop("no " of " has the number " number)
    return name_of[of, number]
}
