# Sourced by what has rt prove crates, which takes minutes: shows on standard error which crate is being proved.
# `me` and `repo` are set as for kit.sh.

# Runs COMMAND at the root of the repository. It has rt prove CRATES; what it prints goes to LOG.
# usage: run_shown LOG CRATES COMMAND...
run_shown() {
    log=$1
    plan=$(crates_needed "$2")
    shift 2
    mkdir -p "$(dirname "$log")"
    : >"$log"
    show_each_second &
    shower=$!
    trap 'kill "$shower"; clear_line; exit 130' INT # what runs in the background does not hear of it otherwise
    status=0
    (cd "$repo" && "$@") >"$log" 2>&1 || status=$?
    trap - INT
    kill "$shower" 2>/dev/null || true
    wait "$shower" 2>/dev/null || true
    clear_line
    return "$status"
}

# The crates of the project that each of CRATES needs, and itself, none twice, in the order in which rt proves them: each behind those that
# it needs.
crates_needed() {
    awk -v wanted="$1" '
        function visit(name,  needed, count, k) {
            if (seen[name]++) return
            count = split(needs[name], needed, " ")
            for (k = 1; k <= count; k++) if (needed[k] in needs) visit(needed[k])
            print name
        }
        { sub(/#.*/, "") }
        split($0, part, ":") == 2 { split(part[1], word, " "); needs[word[1]] = part[2] }
        END {
            count_wanted = split(wanted, want, " ")
            for (w = 1; w <= count_wanted; w++) visit(want[w])
        }' "$repo/crates.txt"
}

# Until it is killed; it ends by itself where the script is gone.
show_each_second() {
    named=
    while sleep 1 >/dev/null 2>&1 && kill -0 $$ 2>/dev/null; do
        show_crates
    done
}

# Names each crate that rt has begun to prove, by its place among all; those that were proved before it passes without a word.
show_crates() {
    begun=$(begun_crates)
    count=0
    for crate in $plan; do
        count=$((count + 1))
        case " $named " in *" $crate "*) continue ;; esac
        case " $begun " in *" $crate "*) ;; *) continue ;; esac
        named="$named $crate"
        show "$me: proving $crate ($count of $(echo "$plan" | wc -l))"
    done
}

# What rt says as it begins a crate, or else of the crate when it has proved it.
begun_crates() {
    awk '
        /^rt: chose --jobs [0-9]+ for / { print $6 }
        $1 == "crate" { sub(/:.*/, "", $2); print $2 }' "$log" | tr '\n' ' '
}

# On a terminal one line, which is written anew.
show() {
    clear_line
    if [ -t 2 ]; then printf '%s' "$1" >&2; else printf '%s\n' "$1" >&2; fi
}

clear_line() {
    if [ -t 2 ]; then printf '\r\033[K' >&2; fi
}
