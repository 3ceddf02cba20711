# Sourced by scripts that build programs for x86-64 in C or Rust, on x86-64 and on Arm; kit.sh is sourced before.
# M16C_RUST in the environment names a folder to keep Debian's Rust in (default target/rust).

# What is written here: commands for compiling, linking and running.
commands=$repo/target/build
mkdir -p "$commands"

# Sets `root` and `root_libs`: Debian's Rust and qemu-user, fetched if they are not there.
fetch_rust() {
    root=${M16C_RUST:-$repo/target/rust}
    mkdir -p "$root" || fail "M16C_RUST: cannot make $root"
    root=$(cd "$root" && pwd -P)
    root_libs=$root/usr/lib/$machine-linux-gnu
    if [ ! -x "$root/usr/bin/rustc" ] || [ ! -x "$root/usr/bin/qemu-x86_64" ] ||
        [ ! -d "$root/usr/lib/rustlib/x86_64-unknown-linux-gnu/lib" ]; then
        need apt-get dpkg curl
        echo "$me: fetching Debian's Rust" >&2
        "$repo/scripts/build/get-rust" "$root" >"$repo/target/get-rust.log" 2>&1 || fail "fetching Debian's Rust failed: see target/get-rust.log"
    fi
}

write_script() {
    cat >"$1"
    chmod +x "$1"
}

# Writes into `commands` the commands `link-x86`, which links as a C compiler does, by the kit's linker with its C library for x86-64, and
# `run-x86`, which runs what was so linked, under the kit's emulator where the kit has one.
write_kit_commands() {
    emulator=$tools/bin/qemu-x86_64
    [ -x "$emulator" ] || emulator=
    write_script "$commands/run-x86" <<SCRIPT
#!/bin/sh
exec ${emulator:+'$emulator'} '$tools/lib/ld-linux-x86-64.so.2' --library-path '$tools/lib' "\$@"
SCRIPT
    write_script "$commands/link-x86" <<SCRIPT
#!/bin/sh
n=\$#
while [ "\$n" -gt 0 ]; do
    word=\$1; shift; n=\$((n - 1))
    case \$word in
    -m64 | -nodefaultlibs | -lutil | -lrt | -lpthread | -ldl | -lc | -lm | -lgcc_s | -lgcc | -no-pie | -pie) ;;
    -Wl,*) old=\$IFS; IFS=,; for part in \${word#-Wl,}; do set -- "\$@" "\$part"; done; IFS=\$old ;;
    *) set -- "\$@" "\$word" ;;
    esac
done
lib='$tools/lib'
exec '$tools/bin/ld.lld' -pie -dynamic-linker /lib64/ld-linux-x86-64.so.2 "\$lib/Scrt1.o" "\$lib/crti.o" "\$lib/crtbeginS.o" "\$@" \\
    "\$lib/libc.so.6" "\$lib/libc_nonshared.a" "\$lib/libgcc_s.so.1" "\$lib/libm.so.6" "\$lib/libgcc.a" "\$lib/crtendS.o" "\$lib/crtn.o"
SCRIPT
}

# Writes into `commands` the commands `rustc-x86`, `rustdoc-x86` and `rustc-own`, Debian's Rust for x86-64 and for this machine, and
# `emulate-x86`, which runs what they made for x86-64 under Debian's emulator, with the plugin that `plugin` names, if any.
write_rust_commands() {
    write_kit_commands
    write_script "$commands/rustc-own" <<SCRIPT
#!/bin/sh
LD_LIBRARY_PATH='$root_libs' exec '$root/usr/bin/rustc' "\$@"
SCRIPT
    for tool in rustc rustdoc; do
        write_script "$commands/$tool-x86" <<SCRIPT
#!/bin/sh
LD_LIBRARY_PATH='$root_libs' exec '$root/usr/bin/$tool' --target x86_64-unknown-linux-gnu -C target-cpu=x86-64 -C linker='$commands/link-x86' "\$@"
SCRIPT
    done
    write_script "$commands/emulate-x86" <<SCRIPT
#!/bin/sh
LD_LIBRARY_PATH='$root_libs' exec '$root/usr/bin/qemu-x86_64' \${plugin:+-plugin "\$plugin"} \\
    '$tools/lib/ld-linux-x86-64.so.2' --library-path '$tools/lib' "\$@"
SCRIPT
}

# Everything that programs of `rustc-x86` need.
prepare_x86() {
    fetch_rust
    write_rust_commands
}

# Sets `rustc`, `rustdoc` and `launcher`, which runs what they make: on x86-64 the installed Rust, where there is one.
choose_rust() {
    if [ "$machine" = x86_64 ] && has rustc && has cc; then
        rustc=rustc
        rustdoc=rustdoc
        launcher=
        return
    fi
    prepare_x86
    rustc=$commands/rustc-x86
    rustdoc=$commands/rustdoc-x86
    launcher=$commands/emulate-x86
}

# Compiles C to OBJECT: on x86-64 by the installed compiler; elsewhere the kit's has no headers and takes this machine's, which are the
# same for what C itself has.
compile_c() {
    object=$1
    shift
    if c_is_native; then
        cc "$@" -c -o "$object"
        return
    fi
    need gcc
    "$tools/bin/clang" --target=x86_64-unknown-linux-gnu -fPIC -nostdinc -isystem "$(gcc -print-file-name=include)" \
        -isystem "/usr/include/$machine-linux-gnu" -isystem /usr/include "$@" -c -o "$object"
}

# Links objects and archives to PROGRAM and sets `launcher`, which runs it.
link_c() {
    program=$1
    shift
    launcher=
    if c_is_native; then
        cc "$@" -o "$program"
        return
    fi
    write_kit_commands
    "$commands/link-x86" "$@" -o "$program"
    launcher=$commands/run-x86
}

c_is_native() {
    [ "$machine" = x86_64 ] && has cc
}
