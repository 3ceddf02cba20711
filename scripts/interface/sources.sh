# Sourced by run: the sources, as lines of words.

# The version, three numbers with points between them.
version() {
    grep -x '[0-9]*\.[0-9]*\.[0-9]*' "$repo/VERSION" || {
        echo "the file VERSION does not have a version of three numbers" >&2
        exit 1
    }
}

# "NUMBER NAME" of each name of an enum of the record, by the definition that its conversion to a number is proved to be.
numbered() {
    awk -v enum="$1" '$1 == tolower(enum) "_no" && $3 == "=" { sub(/.*\./, "", $2); print $4, $2 }' "$repo/crates/record/specs/Numbers.antt"
}

# "NUMBER NAME MEANING" of each refusal, and of 0, which is none.
numbered_refusals() {
    echo "0 Accepted done"
    awk '$2 == "=" && $4 == "//" {
        name = $1; number = $3; sub(/,/, "", number)
        sub(/^.*\/\/ /, "")
        print number, name, $0
    }' "$repo/crates/record/src/refusal.rt"
}

# The same of lengths that callers make room by. Each stands in a definition or is proved: `whole` (sweep/specs/Sweep), `two_to_seven`
# (rows/proofs/Length), `line_short` (line/proofs/Lined).
numbered_lengths() {
    cat <<'LIST'
4096 longest_image the longest image that is swept, in bytes
7 longest_instruction the longest instruction, in bytes
120 longest_line room that is enough for every line, in bytes
LIST
}

# "NUMBER FIELD" of each number of a record, in the order of the definition by which the decoders are proved to fill their entries.
numbered_fields() {
    awk '
        /^(numbers_of|part_numbers) [a-z] =$/ { on = $1; next }
        /^$/ { on = "" }
        on != "" { text[on] = text[on] " " $0 }
        $1 == "entries" && $2 == "=" { entries = $3 }
        END {
            list = text["numbers_of"]
            sub(/part_numbers x\.inst\.parts/, text["part_numbers"], list)
            gsub(/[()]|\[\]|\.inst/, "", list)
            count = split(list, item, /∷|[+][+]/)
            for (k = 1; k <= count; k++) if (match(item[k], /\..*[a-z0-9]/)) {
                field = substr(item[k], RSTART + 1, RLENGTH - 1)
                gsub(/\./, "_", field)
                print fields++, field
            }
            exit fields != entries
        }' "$repo/crates/m16c_decode/specs/Decoded.antt" || {
        echo "crates/m16c_decode/specs/Decoded.antt: scripts/interface cannot read numbers_of" >&2
        exit 1
    }
}

# The opcodes that carry a size in the Rust. The oracle's driver lists them, and compiles only if the given Rust agrees.
sized_opcodes() {
    awk '/with size:$/ { on = 1; next } on && /}/ { exit } on' "$repo/oracle/driver.rs" | tr -s ' ' '\n' | grep .
}

# Of each function for C, in the order of crates.txt, its comment as "// ..." lines and then "fn NAME RETURNED; PARAMETER: TYPE; ...".
# The small archive has some of them once more.
functions() {
    sed 's/[ :].*//' "$repo/crates.txt" | grep -v '^m16c_small' | while read -r crate; do
        functions_of "$crate"
    done
}

# A function that a crate NAME_c only hands on has its comment in the crate NAME.
functions_of() {
    [ -f "$repo/crates/$1/src/lib.rt" ] || return 0
    set -- "$repo/crates/$1/src/lib.rt" "$repo/crates/${1%_c}/src/lib.rt"
    if [ "$1" = "$2" ] || [ ! -f "$2" ]; then set -- "$1"; else set -- "$2" "$1"; fi
    awk '
        FNR == 1 { on = 0; text = comment = "" }
        /^\/\// && !on { comment = comment $0 "\n"; next }
        /^#\[unsafe\(no_mangle\)\]/ { on = 1; next }
        /^#\[/ { next }
        /^pub fn / && !on { sub(/^pub fn /, ""); sub(/\(.*/, ""); comment_of[$0] = comment; comment = ""; next }
        !on { comment = ""; next }
        /^    ensures/ {
            parameters = text; sub(/^[^(]*\( */, "", parameters); sub(/,? *\) *->.*/, "", parameters); gsub(/, +/, "; ", parameters)
            returned = text; sub(/^.*-> */, "", returned); sub(/ *$/, "", returned)
            sub(/^.* fn /, "", text); sub(/\(.*/, "", text)
            printf "%sfn %s %s; %s\n", comment_of[text] == "" ? comment : comment_of[text], text, returned, parameters
            on = 0
            text = comment = ""
            next
        }
        { gsub(/ +/, " "); text = text $0 }' "$@"
}

# One header serves both archives: the small one's functions are declared as in the crates of their own.
check_small() {
    functions | grep '^fn ' >"$out/declared"
    sed 's/[ :].*//' "$repo/crates.txt" | grep '^m16c_small' | while read -r crate; do functions_of "$crate"; done | grep '^fn ' >"$out/small" || {
        echo "no function of the small archive is found" >&2
        exit 1
    }
    ! grep -vxFf "$out/declared" "$out/small" || {
        echo "the crates m16c_small.. declare the functions above otherwise than the crates of that name" >&2
        exit 1
    }
}
