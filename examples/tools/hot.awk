# Draws what was hot when: the sets of a text of `topk` over time, an object a line and a set a column:
#
#     topk replay WORDS | awk -f hot.awk
#
# `#` stands where the object is a member of the set and `.` where it is not; objects stand in the order in which they
# first are members. It serves `replay`, `window`, `live`, `check`, `sessions` and `multi`, of which each session and query is
# drawn alone. After 60 sets a new strip begins; `-v most=N` says another number, and 0 none. Without a set it ends with
# status 1.
function filled(text, width) {
    while (length(text) < width) text = text " "
    return text
}
function draw_strip(first, last,  i, n, line) {
    print "sets " first " to " last ", a column each: # a member, . not"
    for (i = 1; i <= objects; i++) {
        line = ""
        for (n = first; n <= last; n++) line = line ((n, object[i]) in is_member ? "#" : ".")
        if (line ~ /#/) print filled(object[i], widest) " " line
    }
}
# Draws the sets that are held, and forgets them.
function draw(  first, last) {
    for (first = 1; first <= sets; first = last + 1) {
        last = most > 0 && first + most - 1 < sets ? first + most - 1 : sets
        draw_strip(first, last)
    }
    drawn += sets
    sets = objects = widest = 0
    split("", is_member)
    split("", seen)
}
BEGIN { if (most == "") most = 60 }
$1 == "session" || $1 == "query" { draw(); print }
$1 == "set" || $1 == "final" {
    for (at = $3 == "cut" ? 4 : 8; $at != "members"; at++) if (at > NF) next
    sets++
    while (++at <= NF) {
        is_member[sets, $at] = 1
        if ($at in seen) continue
        seen[$at] = 1
        object[++objects] = $at
        if (length($at) > widest) widest = length($at)
    }
}
END {
    draw()
    if (!drawn) { print "hot: the text has no set" | "cat 1>&2"; exit 1 }
}
