# Makes a stream of flow records as `nfdump -o csv` writes them, one `address,bytes` a flow:
#
#     while read -r file; do nfdump -r "$file" -o csv; done | awk -f to_stream.awk | topk monitor .. --skip-bad yes -
#
# reads the names of files as they are finished. Each file begins with a head line, in which the columns are found by their names,
# `sa` and `ibyt`; `-v by=da` sums by destination, and `-v of=ipkt` sums packets. A row without a number there is passed over, as
# to_logs.awk does, and so is the summary. An address that the catalogue does not have is a bad line, which `--skip-bad yes` passes over.
BEGIN {
    FS = ","
    if (by == "") by = "sa"
    if (of == "") of = "ibyt"
}
# A head line, or the first line of a summary.
/^[A-Za-z]/ {
    by_column = of_column = 0
    for (i = 1; i <= NF; i++) {
        if ($i == by) by_column = i
        if ($i == of) of_column = i
    }
    next
}
by_column && of_column {
    name = $by_column
    bytes = $of_column
    gsub(/ /, "", name)
    gsub(/ /, "", bytes)
    if (name !~ /^[!-~]+$/ || length(name) > 255 || bytes !~ /^[0-9]+$/) next
    print name "," bytes
    fflush()
}
