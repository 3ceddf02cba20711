# Sourced by run: code sizes.

# A line "bytes FUNCTION - WHOSE CODE CONSTANTS" for each function, of the port's archives and of the Rust, and for some that are linked
# together: both decoders, the functions by document 01, those by the manual, and all.
measure_sizes() {
    archive_sizes fast "$fast"
    if [ -n "$small" ]; then archive_sizes small "$small"; fi
    rust_sizes 3
    rust_sizes z
}

archive_sizes() {
    for function in $c_functions; do
        code_size "${function#m16c_} - $1" "$2" "$function"
    done
    code_size "decoders - $1" "$2" m16c_decode m16c_decode_manual
    code_size "together - $1" "$2" $document_functions
    code_size "manual - $1" "$2" $manual_functions
    code_size "all - $1" "$2" $c_functions
}

# At a level of optimisation. The Rust has decoding and sweeping.
rust_sizes() {
    for peer in nine sweep_call both; do
        build_peer "$peer" "$1" --emit "obj=$out/$peer-$1.o"
    done
    code_size "decode - rust_$1" "$out/nine-$1.o" rust_nine
    code_size "sweep - rust_$1" "$out/sweep_call-$1.o" rust_sweep_call
    code_size "together - rust_$1" "$out/both-$1.o" rust_nine rust_sweep_call
}

# How big is what functions need of an object or archive: linked alone, with nothing kept that they do not reach, and read off the map.
# Code (.text) and constants (.rodata) count. Left out: unwinding tables, and what only a panic needs, which is in the sections
# of formatting and panicking functions, in strings (.rodata.str) and in unnamed constants (.rodata..Lanon); should a table of the
# Rust be among these last, the Rust is shown smaller than it is.
# usage: code_size NAME OBJECT FUNCTION..
code_size() {
    name=$1
    object=$2
    shift 2
    printf '{ global:%s local: *; };\n' "$(printf ' %s;' "$@")" >"$work/version"
    "$tools/bin/ld.lld" -shared --gc-sections $(printf ' --undefined=%s' "$@") --version-script="$work/version" \
        -Map="$work/map" -o "$work/sized.so" "$object"
    awk -v name="$name" '
        function hex(text,  k, value) {
            for (k = 1; k <= length(text); k++) value = 16 * value + index("0123456789abcdef", substr(text, k, 1)) - 1
            return value
        }
        { section = $0; sub(/.*:\(/, "", section) }
        section ~ /fmt|panicking|^\.rodata\.str|^\.rodata\.\.Lanon/ { next }
        section ~ /^\.text/ { text += hex($3) }
        section ~ /^\.rodata/ { rodata += hex($3) }
        END { print "bytes", name, text, rodata }' "$work/map"
}
