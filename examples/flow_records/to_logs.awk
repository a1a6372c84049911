# Makes the catalogue and the change logs of flow records, one log a router, as `nfdump -o csv` writes them:
#
#     awk -f to_logs.awk edge1.flows edge2.flows edge3.flows
#
# writes objects.csv, a source address a line in the order in which they first come, and 1.csv, 2.csv, .., one
# `address,bytes` a flow. The columns are found by their names in the head line, `sa` and `ibyt`; `-v by=da` sums by
# destination, and `-v of=ipkt` sums packets. A row without a number there is passed over, so the summary is. A flow that
# passes two of the routers counts twice.
BEGIN {
    FS = ","
    if (by == "") by = "sa"
    if (of == "") of = "ibyt"
    for (i = 1; i < ARGC; i++) printf "" > (i ".csv")
}
# A file without lines is a router too.
FNR == 1 {
    do router++; while (router < ARGC - 1 && ARGV[router] != FILENAME)
    by_column = of_column = 0
    for (i = 1; i <= NF; i++) {
        if ($i == by) by_column = i
        if ($i == of) of_column = i
    }
    if (!by_column || !of_column) {
        print FILENAME ": the head line has not both of " by " and " of | "cat 1>&2"
        exit 2
    }
    next
}
/^Summary/ { by_column = 0 }
by_column {
    name = $by_column
    bytes = $of_column
    gsub(/ /, "", name)
    gsub(/ /, "", bytes)
    if (name !~ /^[!-~]+$/ || length(name) > 255 || bytes !~ /^[0-9]+$/) next
    if (!(name in seen)) { seen[name] = 1; print name > "objects.csv" }
    print name "," bytes > (router ".csv")
}
