# ratios.awk BOUNDS MEASURED: what measure.c has measured of each call, and worst.c has found, next to the bounds of the function that makes
# it. Exit status 1 where a measured number is above its bound.
BEGIN { FS = OFS = "\t" }
FNR == NR {
    if ($1 ~ /^call_/) { stack[$1] = $2; most[$1] = $3 }
    next
}
FNR == 1 { next }

function made_by(name, word) {
    if (name ~ /by rq_call/) return "call_bytes"
    if (name ~ /^completion/) return "call_complete"
    if (name ~ /^comparison/) return "call_compare"
    if (name ~ /^pile check, one/) return "call_pile_step"
    split(name, word, /[ ,]/)
    return word[1] == "pile" ? "call_pile_" word[2] : "call_" word[1]
}

{
    call = made_by($1)
    if ($5 > worst[call]) worst[call] = $5
    if ($6 > deepest[call]) deepest[call] = $6
}

END {
    print "call", "stack, measured", "at most", "instructions, measured", "at most", "ratio"
    for (call in worst) {
        known = most[call] ~ /^[0-9]+$/
        print call, deepest[call], stack[call], worst[call], most[call], known ? sprintf("%.2f", most[call] / worst[call]) : "" | "sort"
        if (deepest[call] > stack[call] || (known && worst[call] > most[call])) {
            print "bounds: " call ": measured more than the bound"
            bad = 1
        }
    }
    close("sort")
    exit bad
}
