# Makes a picture of what was hot when, in SVG, which a browser shows:
#
#     topk replay WORDS | awk -f hot_svg.awk >hot.svg
#
# An object a row and a set a column; a bar stands where the object is a member. Rows stand in the order in which the objects
# first are members. Of `sessions` and `multi` each session and query is a part of its own. Names of more than 40 letters are
# cut. Without a set it ends with status 1.
function escaped(text) {
    gsub(/&/, "\\&amp;", text)
    gsub(/</, "\\&lt;", text)
    gsub(/>/, "\\&gt;", text)
    return text
}
function shown(name) { return length(name) > 40 ? substr(name, 1, 38) ".." : name }
function label(x, y, anchor, text) {
    printf "<text x=\"%d\" y=\"%d\" text-anchor=\"%s\">%s</text>\n", x, y, anchor, escaped(text)
}
# A bar from one set to another, both within it.
function bar(first, last, y) {
    printf "<rect x=\"%.2f\" y=\"%d\" width=\"%.2f\" height=\"14\" fill=\"#c4502b\"/>\n", left + (first - 1) * cell, y, (last - first + 1) * cell
}
function draw_row(p, name, y,  n, first) {
    label(left - 8, y + 12, "end", shown(name))
    for (n = 1; n <= sets[p] + 1; n++) {
        if ((p, n, name) in is_member) { if (!first) first = n }
        else if (first) { bar(first, n - 1, y); first = 0 }
    }
}
# The numbers of some sets over the columns: at most twelve, a round number apart.
function draw_numbers(p, y,  step, n) {
    for (step = 1; sets[p] / step > 12; step = step ~ /^2/ ? step * 2.5 : step * 2);
    for (n = step; n <= sets[p]; n += step) label(left + (n - 0.5) * cell, y, "middle", n)
}
function draw_part(p, y,  i) {
    label(8, y - 24, "start", title[p])
    draw_numbers(p, y - 6)
    printf "<path d=\"M%d %dh%.2f\" stroke=\"#888\"/>\n", left, y - 2, sets[p] * cell
    for (i = 1; i <= objects[p]; i++) draw_row(p, object[p, i], y + (i - 1) * 18)
}
BEGIN { title[part = 1] = "sets" }
$1 == "session" || $1 == "query" {
    if (named) part++
    named = 1
    title[part] = "sets of " $0
}
$1 == "set" || $1 == "final" {
    for (at = $3 == "cut" ? 4 : 8; $at != "members"; at++) if (at > NF) next
    if (++sets[part] > most) most = sets[part]
    while (++at <= NF) {
        is_member[part, sets[part], $at] = 1
        if ((part, $at) in seen) continue
        seen[part, $at] = 1
        object[part, ++objects[part]] = $at
        if (length(shown($at)) > widest) widest = length(shown($at))
    }
}
END {
    if (!most) { print "hot_svg: the text has no set" | "cat 1>&2"; exit 1 }
    left = int(widest * 7.3) + 20
    cell = most > 32 ? 700 / most : 22
    width = left + most * cell + 16
    for (p = 1; p <= part; p++) {
        height += 18 * objects[p] + 56
        if (length(title[p]) * 7.3 + 24 > width) width = length(title[p]) * 7.3 + 24
    }
    printf "<svg xmlns=\"http://www.w3.org/2000/svg\" width=\"%d\" height=\"%d\"", width, height
    print " font-family=\"DejaVu Sans Mono, monospace\" font-size=\"12\" fill=\"#223\">"
    print "<rect width=\"100%\" height=\"100%\" fill=\"#fff\"/>"
    y = 46
    for (p = 1; p <= part; p++) { draw_part(p, y); y += 18 * objects[p] + 56 }
    print "</svg>"
}
