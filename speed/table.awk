# Makes the comparison from lines of kind, name, bytes, operation, side, instructions. The exit code is 1 if a bar is missed.
# The sides are ours, the Rust as it stands (rust) and the Rust at its best (best). Each has its own bars: of the operation, the most on a
# body of `from` bytes or more, and the most as geometric mean.
BEGIN {
    split("base,scene,text label,multi-stream,DRC and loudness", kinds, ",")
    bars("read", "rust", 0.8, 0, 0.5)
    bars("write", "rust", 1.0, 50, 0.8)
    bars("read", "best", 0.8, 3, 0.35)
    bars("write", "best", 1.0, 50, 0.9)
}

function bars(operation, side, limit, from, mean) {
    most[operation, side] = limit
    least[operation, side] = from
    middle[operation, side] = mean
}

{
    key = $1 " " $2
    if (!(key in bytes)) {
        keys[++bodies] = key
        bytes[key] = $3
    }
    cost[key, $4, $5] = $6
}

# Our instructions over those of a side; what that adds to its bars.
function ratio(key, operation, side,    r, own) {
    r = cost[key, operation, "ours"] / cost[key, operation, side]
    logs[operation, side] += log(r)
    many[operation, side]++
    split(key, own, " ")
    kindLogs[operation, side, own[1]] += log(r)
    kindMany[operation, side, own[1]]++
    if (bytes[key] >= least[operation, side] && r > most[operation, side])
        missed[operation, side] = missed[operation, side] (missed[operation, side] == "" ? ": " : ", ") label(key) sprintf(" (%.2f)", r)
    return r
}

function cells(key, operation) {
    if (!((key, operation, "ours") in cost))
        return "  |  |  |  |  |"
    return sprintf(" %.0f | %.0f | %.0f | %.2f | %.2f |", cost[key, operation, "rust"], cost[key, operation, "best"], cost[key, operation, "ours"], \
        ratio(key, operation, "rust"), ratio(key, operation, "best"))
}

function label(key,    part) {
    split(key, part, " ")
    return kinds[part[1]] " " part[2]
}

function judge(operation, side, text,    mean, on) {
    mean = exp(logs[operation, side] / many[operation, side])
    on = least[operation, side] == 0 ? "every body" : "every body of " least[operation, side] " bytes or more"
    bar(sprintf("%s at most %.1f on %s", text, most[operation, side], on), missed[operation, side] == "", missed[operation, side])
    bar(sprintf("%s at most %.2f as geometric mean", text, middle[operation, side]), mean <= middle[operation, side], sprintf(", %.2f over %d", mean, many[operation, side]))
}

function kindMean(operation, side, kind) {
    return exp(kindLogs[operation, side, kind] / kindMany[operation, side, kind])
}

function bar(text, ok, more) {
    printf "- %s: %s%s\n", text, ok ? "met" : "**missed**", more
    if (!ok)
        code = 1
}

END {
    print "| Kind | Body | Bytes | Reading: Rust | at its best | ours | ratio | to the best | Writing: Rust | at its best | ours | ratio | to the best |"
    print "|---|---|--:|--:|--:|--:|--:|--:|--:|--:|--:|--:|--:|"
    for (i = 1; i <= bodies; i++) {
        key = keys[i]
        split(key, part, " ")
        if (part[2] !~ /^scale-/)
            printf "| %s | %s | %d |%s%s\n", kinds[part[1]], part[2], bytes[key], cells(key, "read"), cells(key, "write")
    }
    print "\nAgainst the Rust as it stands:\n"
    judge("read", "rust", "reading")
    judge("write", "rust", "writing")
    print "\nAgainst the Rust at its best:\n"
    judge("read", "best", "reading")
    judge("write", "best", "writing")
    print "\nGeometric means to the Rust at its best, by kind (the bars are on those over all):\n"
    print "| Kind | Reading | Writing |"
    print "|---|--:|--:|"
    for (i = 1; i <= 5; i++)
        printf "| %s | %.2f | %.2f |\n", kinds[i], kindMean("read", "best", i), kindMean("write", "best", i)
    print "\nOur instructions per byte, from short to long:\n"
    print "| Kind | Bytes | Reading | Writing |"
    print "|---|--:|--:|--:|"
    for (i = 1; i <= bodies; i++) {
        key = keys[i]
        split(key, part, " ")
        if (part[2] ~ /^scale-/)
            printf "| %s | %d | %.3f | %.3f |\n", kinds[part[1]], bytes[key], cost[key, "read", "ours"] / bytes[key], cost[key, "write", "ours"] / bytes[key]
    }
    exit code
}
