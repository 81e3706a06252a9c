# The library beside the C baselines, from bench/run's files `instructions` and `times`: the first table, or with -v targets=1 the ratios to
# straight-line C, and of share run and Translate to the other C, beside their targets.
BEGIN {
    FS = "|"
    target[2] = target[3] = 3
    target[8] = 1.5
    decoded["share run, per word"] = 1.2
    decoded["translate, per share word"] = 1.35
}

$1 == "count" { count[$2, $3, $4] = $6 / $5 }
$1 == "time" {
    time[$2, $3, $4] = $5
    if ($4 == "library") order[++rows] = $2 SUBSEP $3
}

function figure(v) { return v < 1000 ? sprintf("%.2f", v) : sprintf("%.0f", v) }

# The library's figure, and each baseline's with the ratio to it; a dash for a baseline that a row does not have.
function columns(measure, row,    library, text, side, s, v) {
    library = measure[row, "library"]
    text = " " figure(library) " |"
    split("straight base", side, " ")
    for (s = 1; s <= 2; s++) {
        if (!((row, side[s]) in measure)) { text = text " - | - |"; continue }
        v = measure[row, side[s]]
        text = text " " figure(v) " | " sprintf("%.2f", library / v) " |"
    }
    return text
}

function missing(key) {
    gsub(SUBSEP, ", ", key)
    print "bench: no instruction count for " key | "cat >&2"
    exit 1
}

function comparison(    r, key, measured) {
    for (measured in time) if (!(measured in count) || count[measured] <= 0) missing(measured)
    print "| case | n | library, instructions | straight C | ratio | other C | ratio | library, ns | straight C | ratio | other C | ratio |"
    print "|---|---|---|---|---|---|---|---|---|---|---|---|"
    for (r = 1; r <= rows; r++) {
        split(order[r], key, SUBSEP)
        print "| " key[1] " | " (key[2] ? key[2] : "-") " |" columns(count, order[r]) columns(time, order[r])
    }
}

function verdict(measure, row, limit,    v) {
    v = measure[row, "library"] / measure[row, "straight"]
    return sprintf(" %.2f | %s |", v, v <= limit ? "met" : "not met")
}

function beside_targets(    r, key) {
    print "| library to straight C | n | target | instructions | | time | |"
    print "|---|---|---|---|---|---|---|"
    for (r = 1; r <= rows; r++) {
        split(order[r], key, SUBSEP)
        if (!((order[r], "straight") in time) || !(key[2] in target)) continue
        print "| " key[1] " | " key[2] " | " target[key[2]] " |" verdict(count, order[r], target[key[2]]) verdict(time, order[r], target[key[2]])
    }
}

# Loops that take words apart: above its target the compiler no longer puts the taking apart into the loop, and the run fails.
function of_decoding(    r, key, v, status) {
    print "\n| library to other C | n | target | instructions | |"
    print "|---|---|---|---|---|"
    for (r = 1; r <= rows; r++) {
        split(order[r], key, SUBSEP)
        if (!(key[1] in decoded)) continue
        v = count[order[r], "library"] / count[order[r], "base"]
        printf "| %s | %s | %s | %.2f | %s |\n", key[1], key[2], decoded[key[1]], v, v <= decoded[key[1]] ? "met" : "not met"
        if (v > decoded[key[1]]) {
            print "bench: " key[1] " on " key[2] " shares is above its target: is the taking apart of words still put into its caller?" | "cat >&2"
            status = 1
        }
    }
    return status
}

END {
    if (!targets) { comparison(); exit }
    beside_targets()
    exit of_decoding()
}
