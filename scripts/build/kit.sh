# Sourced by every script that uses the Rattle kit.
# They set `me`, their name in messages, and `repo`, the root of the repository, before.

machine=$(uname -m)

# One line on standard error, exit 2.
fail() {
    printf '%s: %s\n' "$me" "$*" >&2
    exit 2
}

has() {
    command -v "$1" >/dev/null 2>&1
}

need() {
    for tool; do
        has "$tool" || fail "no command '$tool' on the PATH"
    done
}

# Sets `kit` and `tools`: the Rattle kit, and its compiler, linker and C library for x86-64. RATTLE_HOME in the environment names another
# kit than that of `rt` on the PATH.
find_kit() {
    if [ -n "${RATTLE_HOME:-}" ]; then PATH=$RATTLE_HOME/bin:$PATH; fi
    has rt || fail "the Rattle kit is missing: no command 'rt' on the PATH (README.md names its version)"
    need readlink
    kit=$(cd "$(dirname "$(readlink -f "$(command -v rt)")")/.." && pwd -P)
    tools=$kit/toolchain
    [ -x "$tools/bin/ld.lld" ] || fail "the Rattle kit at $kit has no toolchain"
}

# Whether something is there that was built, and no source of the proofs is newer, nor the kit.
is_new() {
    [ -e "$1" ] && [ -z "$(find "$repo"/crates/*/src "$repo"/crates/*/specs "$repo"/crates/*/proofs "$repo/crates.txt" "$kit/KIT-ID" \
        -newer "$1" 2>/dev/null | head -n 1)" ]
}

# Runs a program for x86-64 with the kit's C library, and with an emulator where the kit has one, for another processor.
run_by_kit() {
    set -- "$tools/lib/ld-linux-x86-64.so.2" --library-path "$tools/lib" "$@"
    if [ -x "$tools/bin/qemu-x86_64" ]; then set -- "$tools/bin/qemu-x86_64" "$@"; fi
    "$@"
}
