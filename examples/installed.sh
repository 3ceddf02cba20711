# Sourced by run: whether what ./m16c install leaves is enough for a program.

# Sets `prefix`, with the library installed there. The name has a space, and is not an absolute one.
install_here() {
    rm -rf "$out/a prefix"
    (cd "$out" && M16C_LIBRARY=$library "$repo/m16c" install "a prefix") >"$out/install.log"
    prefix="$out/a prefix"
}

# The words of the installed .pc file for the shell to evaluate: cflags or libs.
pc_words() {
    if has pkg-config; then
        PKG_CONFIG_PATH="$prefix/lib/pkgconfig" pkg-config "--$1" m16c
        return
    fi
    case $1 in cflags) field=Cflags ;; libs) field=Libs ;; esac
    at=$(sed -n 's/^prefix=//p' "$prefix/lib/pkgconfig/m16c.pc")
    sed -n "s|^$field: ||p" "$prefix/lib/pkgconfig/m16c.pc" | sed -e "s|\${libdir}|$at/lib|" -e "s|\${includedir}|$at/include|"
}

# The source too is taken from elsewhere, so that no file of the repository is found beside it.
check_installed() {
    install_here
    mkdir -p "$out/elsewhere"
    cp "$here/decode.c" "$out/elsewhere/"
    eval "compile_c \"\$out/elsewhere/decode.o\" $warnings $(pc_words cflags) \"\$out/elsewhere/decode.c\""
    eval "link_c \"\$out/elsewhere/decode\" \"\$out/elsewhere/decode.o\" $(pc_words libs)"
    run "$out/elsewhere/decode" | expect "$here/decode.expected" "examples/decode.c, with what was installed"
    check_refusals
}

# What cannot be a PREFIX is refused, with status 2.
check_refusals() {
    : >"$out/file"
    for wrong in "" "$out/file" "$out/file/below" "$out/with \"quotes\""; do
        status=0
        M16C_LIBRARY=$library "$repo/m16c" install "$wrong" >>"$out/install.log" 2>&1 || status=$?
        [ "$status" -eq 2 ] || fail "./m16c install '$wrong' ended with status $status, not 2"
    done
    echo "./m16c install: wrong folders are refused"
}
