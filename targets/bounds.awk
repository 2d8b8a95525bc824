# bounds.awk include/robequarry.h LINES, with -v folder=FOLDER: holds the lines that measure.c writes to the stack that the header states
# for a controller, and on the Cortex-M4F an add, a query and a row to 95 instructions and 200 bytes. Exit status 1 where one is more.
BEGIN { FS = "\t" }

# The header's table: a name, and two columns.
FNR == NR {
    if ($0 !~ /^ \*     [a-z].* +[0-9,]+ +[0-9,]+$/) next
    n = split($0, part, / +/)
    bound = part[n - 1]
    gsub(",", "", bound)
    name = $0
    sub(/^ \*     /, "", name)
    sub(/ +[0-9,]+ +[0-9,]+$/, "", name)
    stack[name] = bound + 0
    next
}
FNR == 1 { next }

function row_of(call) {
    if (call ~ /^test/) return "rq_test"
    if (call ~ /^pile (set|restore)/) return "rq_pile_set, rq_pile_restore"
    if (call ~ /^close by/) return "a close by rq_call"
    if (call ~ /^(close|restore)/) return "rq_close, rq_restore"
    if (call ~ /^replay/) return "rq_replay"
    if (call ~ /^border/) return "rq_border"
    if (call ~ /^(check|save|pile save)$/) return "rq_check, rq_save, rq_pile_save"
    if (call ~ /^(witness|completion)/) return "rq_witness, rq_complete"
    if (call ~ /^pile check/) return "rq_pile_check, rq_pile_check_step"
    if (call ~ /^compare/) return "rq_compare"
    if (call ~ /by rq_call/) return "any other call by rq_call"
    return "every other function"
}

{
    row = row_of($1)
    if (!(row in stack) || $6 > stack[row]) {
        print "measure: " folder ": " $1 " needs " $6 " bytes of stack, and the header states " stack[row] " for " row
        bad = 1
    }
}

folder ~ /cortex-m4f$/ && $1 ~ /^(add|query|row)$/ && ($5 > 95 || $6 > 200) {
    print "measure: " folder ": " $1 " takes " $5 " instructions and " $6 " bytes of stack"
    bad = 1
}

END { exit bad }
