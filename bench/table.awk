# The one table of the bench, and its verdicts; exit 1 if a limit is not kept.
# Lines: "KIND TASK WORKLOAD WAY UNITS AMOUNT" of counted instructions (insns; small: with the small archive) and times (ns), and
# "bytes TASK - WHOSE CODE CONSTANTS".
# Set `rows` to a pattern of the workloads that are shown.

BEGIN {
    split("decode decode_manual encode encode_manual sweep sweep_manual sweep_stopping sweep_manual_stopping line line_manual length" \
        " operand_number", tasks, " ")
    # What the port stands beside, in the order shown; and the limits, for the workloads that look like use.
    beside["insns decode"] = "rust_call rust_loop like empty_call"
    beside["insns encode"] = "decode empty_call"
    beside["insns sweep"] = "rust_call rust_loop like stopping before"
    beside["insns sweep_stopping"] = "before"
    beside["insns length"] = "decode like empty_call"
    beside["ns decode"] = "rust_call rust_loop"
    beside["ns encode"] = "decode"
    beside["ns sweep"] = "rust_call rust_loop stopping"
    beside["ns length"] = "decode"
    # By the manual: beside the same function by document 01, of the same bytes, or of another image where the reading has its own.
    for (t = 1; t in tasks; t++) if (tasks[t] ~ /_manual/) {
        beside["insns " tasks[t]] = beside["ns " tasks[t]] = "document document_image"
        limit["insns " tasks[t] " document"] = limit["insns " tasks[t] " document_image"] = 1.25
        judged["insns " tasks[t] " document"] = "^(both|two|lists)$"
        judged["insns " tasks[t] " document_image"] = "^manual$"
        judged["small " tasks[t] " fast"] = "^(both|manual)$"
    }
    limit["insns decode_manual document"] = limit["insns decode_manual document_image"] = 1.05
    limit["insns encode_manual document"] = limit["insns encode_manual document_image"] = 1.1
    limit["bytes decoders decode"] = 1.4
    # Instructions a unit of the one sweep that there was before request A1, which stopped.
    before["image"] = 38.50
    before["codes"] = 39.12
    for (t = 1; t in tasks; t++) {
        beside["small " tasks[t]] = "fast"
        limit["small " tasks[t] " fast"] = 1.5
    }
    # The small archive tells a length by decoding, so this stands beside its own decoding, and has no limit to the table of the fast one.
    beside["small length"] = "fast decode"
    delete limit["small length fast"]
    limit["insns decode rust_call"] = limit["bytes decode rust_3"] = 1
    limit["insns decode like"] = limit["insns sweep like"] = limit["insns length like"] = 1
    limit["insns encode decode"] = 3
    limit["insns length decode"] = 0.25
    limit["insns sweep rust_call"] = 1.1
    limit["insns sweep stopping"] = limit["insns sweep before"] = limit["insns sweep_stopping before"] = 1.02
    # Which workloads these are for; every other limit is for "image", "codes" and sizes.
    judged["insns decode like"] = judged["insns sweep like"] = judged["insns length like"] = "^(two|lists)$"
    # Not lists: they are decoded in so few instructions that the call alone is a seventh of them.
    judged["insns length decode"] = "^(image|codes|two)$"
    most["length fast"] = 6500
    most["together small"] = 24000
    most["manual small"] = 30000
    # Whose code is measured in bytes, in the order shown.
    split("rust_3 rust_z fast small", sized, " ")
    spelled["rust_call"] = "the Rust, called"
    spelled["rust_loop"] = "the Rust, in the loop"
    spelled["like"] = "the same of 78 and 79"
    spelled["stopping"] = "the stopping sweep"
    spelled["before"] = "the sweep before request A1"
    spelled["document"] = "by document 01"
    spelled["document_image"] = "by document 01, of image"
    spelled["fast"] = "the fast archive"
    spelled["rust_3"] = "Rust, 3"
    spelled["rust_z"] = "Rust, z"
    spelled["decode"] = "decoding the same"
    spelled["empty_call"] = "a call that does nothing"
    title["insns"] = "x86-64 instructions a unit, the same on every run and machine"
    title["small"] = "the same with the small archive"
    title["bytes"] = "bytes of x86-64 code and constants, of the Rust at two levels of optimisation and of both archives"
    if (title_of_times != "") title["ns"] = title_of_times
}

{ kind = $1; task = $2; work = $3; way = $4 }
kind == "bytes" { amount[kind, task, work, way] = $5 + $6 }
kind == "small" { has_small = 1 }
kind != "bytes" { units[task, work] = $5; amount[kind, task, work, way] = $6 }
!((kind, task, work) in seen) { seen[kind, task, work]; works[kind, task] = works[kind, task] " " work }

function loop_of(way) { return way == "decode" ? "decode_loop" : "empty_loop" }

# Whether there is something to compare with; a call that does nothing is shown once. What the Rust does not decode stands beside 78 and 79,
# which have two general operands too.
function stands_beside(kind, task, work, other) {
    if (other == "empty_call") return work == "image"
    if (other ~ /^rust_/) return (kind, task, work, other) in amount
    if (other == "like") return !((kind, "decode", work, "rust_call") in amount) && work != "random"
    if (other == "stopping") return (kind, "sweep_stopping", work) in seen
    if (other == "before") return work in before
    if (other == "document") return work != "manual"
    if (other == "document_image") return work == "manual"
    return 1
}

# The amount a unit; the loop with nothing in it is taken off.
function each(kind, task, work, way) {
    if (way == "fast") return each("insns", task, work, "rattle")
    if (way == "stopping") return each(kind, "sweep_stopping", work, "rattle")
    if (way == "before") return before[work]
    if (way == "like") return each(kind, task, "mul", "rattle")
    if (way ~ /^document/) return each(kind, by_document(task), way == "document" ? work : "image", "rattle")
    return all(kind, task, work, way) / units[task, work]
}

function by_document(task) {
    sub(/_manual/, "", task)
    return task
}

function all(kind, task, work, way) {
    return amount[kind, task, work, way] - amount[kind, task, work, loop_of(way)]
}

function row(kind, task, work, other,  own, ratio) {
    own = each(kind, task, work, "rattle")
    printf "  %-21s %-6s %6s %10.2f", task, work, units[task, work], own
    if (other == "") { print ""; return }
    ratio = own / each(kind, task, work, other)
    printf " %10.2f %7.3f  %s\n", each(kind, task, work, other), ratio, spelled[other]
    judge(kind, task, work, other, ratio)
}

function judge(kind, task, work, other, ratio,  key) {
    key = kind " " task " " other
    if (!(key in limit) || work !~ (key in judged ? judged[key] : "^(image|codes|-)$")) return
    if (key in ratios) ratios[key] = ratios[key] ", "
    ratios[key] = ratios[key] sprintf("%.3f", ratio)
    if (ratio > limit[key]) missed[key]
}

function section(kind,  t, w, list) {
    print title[kind]
    for (t = 1; t in tasks; t++) {
        split(works[kind, tasks[t]], list, " ")
        for (w = 1; w in list; w++) if (list[w] ~ rows) rows_of(kind, tasks[t], list[w])
    }
}

# A row for each that it stands beside, or one alone.
function rows_of(kind, task, work,  o, others, shown) {
    split(beside[kind " " task], others, " ")
    for (o = 1; o in others; o++) if (stands_beside(kind, task, work, others[o])) {
        row(kind, task, work, others[o])
        shown = 1
    }
    if (!shown) row(kind, task, work, "")
}

# Each function, both decoders, those by document 01 together, those by the manual, and all; a blank where there is none.
function sizes(  t, w) {
    print title["bytes"]
    printf "  %-21s", ""
    for (w = 1; w in sized; w++) printf " %10s", (sized[w] in spelled && sized[w] ~ /^rust/ ? spelled[sized[w]] : sized[w])
    print ""
    for (t = 1; t in tasks; t++) size_row(tasks[t])
    size_row("decoders")
    size_row("together")
    size_row("manual")
    size_row("all")
}

function size_row(task,  w) {
    printf "  %-21s", task
    for (w = 1; w in sized; w++) printf " %10s", amount["bytes", task, "-", sized[w]]
    print ""
}

function verdict(key, text,  bad) {
    bad = key in missed || !(key in ratios)
    failures += bad
    printf "%s: at most %.2f, is %s: %s\n", text, limit[key], (key in ratios ? ratios[key] : "not measured"), (bad ? "NOT MET" : "met")
}

function size_verdict(key, text,  part, bytes, bad) {
    split(key, part, " ")
    bytes = amount["bytes", part[1], "-", part[2]]
    bad = bytes == "" || bytes > most[key]
    failures += bad
    printf "%s: at most %d bytes, is %s: %s\n", text, most[key], (bytes == "" ? "not measured" : bytes), (bad ? "NOT MET" : "met")
}

END {
    printf "  %-21s %-6s %6s %10s %10s %7s\n", "", "", "units", "rattle", "beside", "ratio"
    section("insns")
    if (has_small) section("small")
    if ("ns" in title) section("ns")
    sizes()
    judge("bytes", "decode", "-", "rust_3", amount["bytes", "decode", "-", "fast"] / amount["bytes", "decode", "-", "rust_3"])
    judge("bytes", "decoders", "-", "decode", amount["bytes", "decoders", "-", "fast"] / amount["bytes", "decode", "-", "fast"])
    print "limits"
    verdict("insns decode rust_call", "  decoding, to the Rust called")
    verdict("insns decode like", "  decoding what the Rust does not have, to decoding 78 and 79")
    verdict("insns sweep like", "  the sweep of these, to that of 78 and 79")
    verdict("insns length like", "  the length of these, to that of 78 and 79")
    verdict("insns encode decode", "  encoding, to decoding the same")
    verdict("insns sweep rust_call", "  the sweep, to the Rust called")
    verdict("insns sweep stopping", "  the sweep, to the stopping sweep")
    verdict("insns sweep before", "  the sweep, to the sweep before request A1")
    verdict("insns sweep_stopping before", "  the stopping sweep, to the sweep before request A1")
    verdict("insns length decode", "  the length, to decoding the same")
    for (t = 1; t in tasks; t++) if (tasks[t] ~ /_manual/) {
        verdict("insns " tasks[t] " document", "  " tasks[t] ", to " by_document(tasks[t]) " of the same bytes")
        verdict("insns " tasks[t] " document_image", "  " tasks[t] " of an image of its own, to " by_document(tasks[t]) " of image")
    }
    verdict("bytes decode rust_3", "  the decoder\047s size, to that of the nine Rust functions")
    verdict("bytes decoders decode", "  the size of both decoders, to that of the one by document 01")
    size_verdict("length fast", "  the length\047s size")
    if (has_small) {
        for (t = 1; t in tasks; t++)
            if (("small " tasks[t] " fast") in limit) verdict("small " tasks[t] " fast", "  " tasks[t] " of the small archive, to the fast one")
        size_verdict("together small", "  the functions by document 01 of the small archive")
        size_verdict("manual small", "  the functions by the manual of the small archive")
    }
    exit failures > 0
}
