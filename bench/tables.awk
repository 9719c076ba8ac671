# Tables of the lines that bench/run gathers: SIDE NAME WIDTH PROCESSORS PICOSECONDS CHECKSUM.

# A time with its unit.
function shown(picoseconds) {
    if (picoseconds < 1e6) return sprintf("%.0f ns", picoseconds / 1e3)
    if (picoseconds < 1e7) return sprintf("%.2f µs", picoseconds / 1e6)
    if (picoseconds < 1e8) return sprintf("%.1f µs", picoseconds / 1e6)
    if (picoseconds < 1e9) return sprintf("%.0f µs", picoseconds / 1e6)
    return sprintf("%.2f ms", picoseconds / 1e9)
}

function grouped(count) {
    return count == 1024 ? "1,024" : "65,536"
}

function least_of(side, name, width, vps) {
    return least[side, name " " width " " vps]
}

# The two times of a thing at a size, and their ratio.
function compared(name, width, vps,    ours, theirs) {
    ours = least_of("rattle", name, width, vps)
    theirs = least_of("rustc", name, width, vps)
    return sprintf("%s / %s = **%.2f**", shown(ours), shown(theirs), ours / theirs)
}

function compared_row(label, name, vps) {
    printf "| %s | %s | %s | %s | %s |\n", label, grouped(vps), \
        compared(name, 8, vps), compared(name, 32, vps), compared(name, 64, vps)
}

function compared_rows(label, name) {
    compared_row(label, name, 1024)
    compared_row(label, name, 65536)
}

function part_row(label, small, great) {
    printf "| %s | %s | %s |\n", label, shown(small), shown(great)
}

# So many times a part of an execution, at both counts of processors.
function part(label, name, times) {
    part_row(label, times * least_of("rattle", name, 32, 1024), times * least_of("rattle", name, 32, 65536))
}

# How much longer one thing takes than another.
function more(name, other, vps) {
    return least_of("rattle", name, 32, vps) - least_of("rattle", other, 32, vps)
}

function execute_ratio(label, side, name) {
    printf "| `execute` / %s | **%.2f** | **%.2f** |\n", label, \
        least_of("rattle", "execute", 32, 1024) / least_of(side, name, 32, 1024), \
        least_of("rattle", "execute", 32, 65536) / least_of(side, name, 32, 65536)
}

function operations() {
    print ""
    print "| Rattle / rustc | processors | 8 bits | 32 bits | 64 bits |"
    print "|---|---|---|---|---|"
    compared_rows("`u-add` in place (`accumulate_step`)", "kernel-add")
    compared_rows("`s-lt` in place (`put_triple`)", "kernel-less")
    compared_rows("`logxor` in place (`xor_in`)", "kernel-xor")
    compared_rows("`u-max` in place (`put_triple`, then `merge_planes`)", "kernel-maximum")
    compared_rows("`u-add`, new planes and two flags", "new-add")
    compared_rows("`u-subtract`, new planes and two flags", "new-subtract")
    compared_rows("`s-lt`, a new plane", "new-less")
    compared_rows("`logxor`, new planes", "new-xor")
    compared_rows("`u-max`, new planes", "new-maximum")
    compared_rows("`FieldValue::numbers`", "numbers")
    compared_rows("`FieldValue::from_numbers`", "from-numbers")
}

# Numbers of which few planes differ, and a number that all processors have.
function layers() {
    print ""
    print "| Rattle / rustc | processors | 8 bits | 32 bits | 64 bits |"
    print "|---|---|---|---|---|"
    compared_rows("`u-add`, of which 10 planes differ", "narrow-add")
    compared_rows("`u-subtract`, of which 10 planes differ", "narrow-subtract")
    compared_rows("`s-lt`, of which 10 planes differ", "narrow-less")
    compared_rows("`logxor`, of which 10 planes differ", "narrow-xor")
    compared_rows("`u-max`, of which 10 planes differ", "narrow-maximum")
    compared_rows("`u-add` of a constant", "constant-add")
    compared_rows("`u-subtract` of a constant", "constant-subtract")
    compared_rows("`s-lt` beside a constant", "constant-less")
    compared_rows("`logxor` with a constant", "constant-xor")
    compared_rows("`u-max` beside a constant", "constant-maximum")
}

function between() {
    print ""
    print "| Rattle / rustc | processors | 8 bits | 32 bits | 64 bits |"
    print "|---|---|---|---|---|"
    compared_rows("`scan-with-u-add` (`scan`)", "scan")
    compared_rows("`spread-with-u-add` (`spread`)", "spread")
    compared_rows("`get-from-news` (`shift`)", "shift")
    compared_rows("a copy of the field (`FieldValue::copy`)", "copy")
    compared_rows("`get` (`get`)", "get")
    compared_rows("`send` (`send`)", "send")
    compared_rows("`u-multiply` (`multiply`)", "multiply")
    compared_rows("`u-truncate` (`truncate`)", "truncate")
}

function of_copy(width, vps) {
    return least_of("rattle", "shift", width, vps) / least_of("rattle", "copy", width, vps)
}

function shift_row(vps) {
    printf "| %s | **%.2f** | **%.2f** | **%.2f** |\n", grouped(vps), of_copy(8, vps), of_copy(32, vps), of_copy(64, vps)
}

# A shift beside a copy of the field that it moves.
function shifts() {
    print ""
    print "| a shift / a copy of the field | 8 bits | 32 bits | 64 bits |"
    print "|---|---|---|---|"
    shift_row(1024)
    shift_row(65536)
}

function scan_row(width, vps) {
    printf "| %d | %s | %s | %s | %s |\n", width, grouped(vps), shown(least_of("rattle", "scan", width, vps)), \
        shown(least_of("rustc", "scan", width, vps)), shown(least_of("numpy", "cumsum", width, vps))
}

function scan_rows(vps) {
    scan_row(8, vps)
    scan_row(32, vps)
    scan_row(64, vps)
}

# The scan beside numpy's, where that was measured.
function scans() {
    if (!(("numpy", "cumsum 8 1024") in least)) return
    print ""
    print "| bits | numbers | Rattle, with overflow | rustc, with overflow | `numpy.cumsum` |"
    print "|---|---|---|---|---|"
    scan_rows(1024)
    scan_rows(65536)
}

function execution() {
    print ""
    print "| `u-add` of 32 bits | 1,024 processors | 65,536 processors |"
    print "|---|---|---|"
    part("`execute`", "execute", 1)
    part("in it, each measured by itself: the sum and its flags, in new planes (`paris_alu::add`)", "new-add", 1)
    part("of which the kernel in place (`accumulate_step`)", "kernel-add", 1)
    part("the merge of the unselected processors' numbers", "value-merge", 1)
    part("copies of three planes (context, carry, overflow)", "flag-copy", 3)
    part("the merge of two flags", "flag-merge", 2)
    execute_ratio("Rattle's kernel in place", "rattle", "kernel-add")
    execute_ratio("rustc's kernel in place", "rustc", "kernel-add")
    execute_ratio("Rattle's sum in new planes", "rattle", "new-add")
    part("not in it: a copy of the order", "order-copy", 1)
    part_row("not in it: `Order::new`, whether the inputs fit", more("order-copy-and-new", "order-copy", 1024), \
        more("order-copy-and-new", "order-copy", 65536))
    part("not in it: a copy of a whole value", "value-copy", 1)
}

function script_rows(label, script, size) {
    printf "| %s | %s | %s |\n", label, shown(least[script, "workers-1 " size]), shown(least[script, "workers-2 " size])
}

function scripts() {
    print ""
    print "| the whole run of a script by `paris_front` | 1 worker | 2 workers |"
    print "|---|---|---|"
    script_rows("1,000 rows, 1,024 processors", "script-rows", "1000 1024")
    script_rows("a product, a scan and a send in 7 rows, 65,536 processors", "script-between", "7 65536")
}

# A result is the same on all sides, and a transcript for all numbers of workers, and what is expected where that is known.
{
    key = $2 " " $3 " " $4
    kind = $1 ~ /^script-/ ? $1 : key
    if (!(($1, key) in least) || $5 + 0 < least[$1, key]) least[$1, key] = $5 + 0
    if ((kind in checksum) && checksum[kind] != $6) {
        print "bench/run: two results of " kind > "/dev/stderr"
        failed = 1
    }
    checksum[kind] = $6
}

END {
    if (failed) exit 1
    operations()
    layers()
    between()
    shifts()
    scans()
    execution()
    scripts()
}
