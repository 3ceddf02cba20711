# Sourced by scripts that use the static library; kit.sh and progress.sh are sourced before.
# M16C_LIBRARY in the environment names an archive to take, instead of building one below target/library.

# By document 01, and those by the manual, which request A9 added.
document_functions="m16c_decode m16c_encode m16c_sweep m16c_sweep_stopping m16c_line m16c_length m16c_operand_number"
manual_functions="m16c_decode_manual m16c_encode_manual m16c_sweep_manual m16c_sweep_manual_stopping m16c_line_manual"
c_functions="$document_functions $manual_functions"

# Which archive is built: fast or small. Scripts that take --small set it.
form=fast

# The words of a script that takes nothing else.
take_form() {
    case "$# $*" in
    "0 ") ;;
    "1 --small") form=small ;;
    *) fail "usage: $me [--small]" ;;
    esac
}

# The crates of an archive, static libraries of an object each: docs/DECISIONS.md says why these.
crates_of() {
    case $1 in
    fast)
        echo "m16c_decode_c m16c_encode_c m16c_encode_manual_c m16c_sweep_c m16c_sweep_manual_c m16c_line_c m16c_line_manual_c" \
            "m16c_length_c m16c_operand_number_c"
        ;;
    small) echo "m16c_small_c m16c_sweep_c m16c_small_manual_c m16c_sweep_manual_c" ;;
    esac
}

# An archive below target. Both have one name, so that what links the one links the other.
archive_of() {
    case $1 in
    fast) echo library/libm16c.a ;;
    small) echo library/small/libm16c.a ;;
    esac
}

# Sets `library`, which has each function for C; it is proved and built anew where a source is newer.
build_library() {
    library=${M16C_LIBRARY:-$repo/target/$(archive_of "$form")}
    case $library in /*) ;; *) library=$PWD/$library ;; esac
    if [ -z "${M16C_LIBRARY:-}" ]; then
        is_new "$library" || make_library make_archives
    elif [ "$form" = small ]; then
        fail "--small builds an archive, and M16C_LIBRARY names one: $library"
    fi
    check_library
}

check_library() {
    [ -r "$library" ] || fail "M16C_LIBRARY: no such archive: $library"
    for function in $c_functions; do
        grep -q -w "$function" "$library" || fail "the library has no function $function: $library"
    done
}

# Sets `library`, made of the archives that HOW leaves in the crates' out/.
# usage: make_library HOW
make_library() {
    run_shown "$repo/target/library.log" "$(crates_of "$form")" "$1" || {
        printf '%s: the library was not built: see target/library.log\n' "$me" >&2
        exit 1
    }
    merge_archives
}

make_archives() {
    for crate in $(crates_of "$form"); do
        make_archive "$crate" rt || return
    done
}

# For each x86-64 processor, since nothing in an archive tests on which it runs.
# usage: make_archive CRATE RT
make_archive() {
    (cd "$repo/crates/$1" && "$2" lib --cpu x86-64)
}

# All their objects in one archive, each with its crate's name. Paths are relative, since llvm-ar's script has no quotes.
merge_archives() {
    archive=$(archive_of "$form")
    library=$repo/target/$archive
    mkdir -p "${library%/*}"
    (
        cd "$repo/target"
        {
            echo "create $archive"
            for crate in $(crates_of "$form"); do echo "addlib ../crates/$crate/out/lib$crate.a"; done
            echo save
            echo end
        } | "$tools/bin/llvm-ar" -M
    ) || fail "merging the archives failed"
}
