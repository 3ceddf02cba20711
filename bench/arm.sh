# Sourced by run: the port's code compiled for Arm, so that it can be timed there.

# A kit of links to the real one, whose clang also keeps each LLVM module that it is given: the only way to the port's code for Arm. rt
# itself is copied, since it goes by where it is.
build_library_and_keep_modules() {
    shadow=$work/kit
    rm -rf "$shadow"
    mkdir -p "$shadow/bin" "$shadow/toolchain/bin"
    link_all "$kit" "$shadow"
    link_all "$kit/bin" "$shadow/bin"
    link_all "$kit/toolchain" "$shadow/toolchain"
    link_all "$tools/bin" "$shadow/toolchain/bin"
    rm "$shadow/bin/rt" "$shadow/bin/rtlib.py" "$shadow/toolchain/bin/clang"
    cp "$kit/bin/rt" "$kit/bin/rtlib.py" "$shadow/bin/"
    write_script "$shadow/toolchain/bin/clang" <<SCRIPT
#!/bin/sh
[ ! -f module.bc ] || cp module.bc '$modules/last.bc'
exec '$tools/bin/clang' "\$@"
SCRIPT
    make_library make_archives_and_keep_modules
    check_library
}

make_archives_and_keep_modules() {
    for crate in $(crates_of fast); do
        make_archive "$crate" "$shadow/bin/rt" || return
        mv "$modules/last.bc" "$modules/$crate.bc" || return
    done
}

# Links to all that a folder has, but for what is there already.
link_all() {
    for file in "$1"/*; do
        [ -e "$2/${file##*/}" ] || ln -s "$file" "$2/"
    done
}

port_for_arm() {
    rm -f "$work/arm.a"
    for crate in $(crates_of fast); do
        module_for_arm "$crate"
        "$tools/bin/llvm-ar" -rc "$work/arm.a" "$modules/$crate.o"
    done
}

# A module names its target in three places.
module_for_arm() {
    "$tools/bin/clang" --target=x86_64-unknown-linux-gnu -x ir "$modules/$1.bc" -O0 -Xclang -disable-llvm-passes \
        -S -emit-llvm -o "$modules/x86.ll"
    sed -e '/^target datalayout/d' -e '/^target triple/d' -e 's/ "target-cpu"="[^"]*"//' "$modules/x86.ll" >"$modules/arm.ll"
    "$tools/bin/clang" --target=aarch64-unknown-linux-gnu -O3 -fPIC -Wno-override-module -c -x ir "$modules/arm.ll" -o "$modules/$1.o"
}
