# Sourced by run: the header.

# The header, its marked parts made anew.
header() {
    c_version >"$out/version"
    c_names >"$out/names"
    c_functions >"$out/functions"
    awk -v out="$out" '
        /^\/\* Made by scripts\/interface: [a-z]+ \*\/$/ {
            print
            while ((getline line < (out "/" $5)) > 0) print line
            made = 1
            parts++
        }
        /^\/\* End of what is made \*\/$/ { made = 0 }
        !made
        END { exit parts != 3 }' "$repo/include/m16c.h" || {
        echo "include/m16c.h does not have the three parts that scripts/interface makes" >&2
        exit 1
    }
}

c_version() {
    version | awk -F. '{
        printf "#define M16C_VERSION \"%s\"\n", $0
        printf "#define M16C_VERSION_MAJOR %d\n#define M16C_VERSION_MINOR %d\n#define M16C_VERSION_PATCH %d\n", $1, $2, $3
    }'
}

c_names() {
    numbered_lengths | enumeration longest ''
    echo
    echo '/* What a function returns. */'
    numbered_refusals | parted | enumeration refusal ''
    echo
    echo '/* The numbers of a record, by their index. */'
    { numbered_fields; echo "$(numbered_fields | grep -c .) numbers"; } | enumeration number ''
    echo
    echo '/* The width that decoding starts with, by the first byte. */'
    numbered Width | enumeration width WIDTH_
    echo
    echo '/* The size that an opcode carries. */'
    numbered Size | enumeration size SIZE_
    echo
    numbered Opcode | enumeration opcode OPCODE_
    echo
    numbered Operand | enumeration operand OPERAND_
}

# ExhaustedInput is EXHAUSTED_INPUT; names of the record have their own underscores.
parted() {
    sed 's/\([a-z]\)\([A-Z]\)/\1_\2/g'
}

# The enumerators M16C_PREFIX_NAME of lines "NUMBER NAME", with what a line says behind them as a comment.
enumeration() {
    awk -v enum="$1" -v prefix="M16C_$2" '
        BEGIN { printf "enum m16c_%s {", enum }
        {
            printf "%s%s\n    %s%s = %d", (NR > 1 ? "," : ""), comment, prefix, toupper($2), $1
            comment = ""
            if (NF > 2) { text = $0; sub(/^[^ ]+ [^ ]+ /, "", text); comment = " /* " text " */" }
        }
        END { print comment "\n};" }'
}

c_functions() {
    functions | awk '
        function c_type(type) { return type == "usize" ? "size_t" : (type ~ /^i/ ? "int" : "uint") substr(type, 2) "_t" }
        function declared(name, type) {
            if (type ~ /^&.*\[/) {
                constant = type ~ /^&mut/ ? "" : "const "
                gsub(/.*\[|\]/, "", type)
                return constant c_type(type) " *" name ", size_t " name "_length"
            }
            return sub(/^&mut /, "", type) ? c_type(type) " *" name : c_type(type) " " name
        }
        /^\/\// { comment = comment (comment == "" ? "" : "\n * ") substr($0, 4); next }
        {
            count = split($0, part, "; "); split(part[1], head, " "); list = ""
            for (k = 2; k <= count; k++) {
                split(part[k], of, ": ")
                list = list (k > 2 ? ", " : "") declared(of[1], of[2])
            }
            printf "%s/* %s */\n%s %s(%s);\n", (seen++ ? "\n" : ""), comment, c_type(head[3]), head[2], list
            comment = ""
        }'
}
