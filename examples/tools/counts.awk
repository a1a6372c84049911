# Tells the counts behind the sets that a run prints, and judges them. It takes the words of the run, and its text as input:
#
#     topk replay WORDS | awk -f counts.awk replay WORDS
#
# For each set it prints the members with their totals at the set's cut, greatest first, and then the greatest object
# outside. It sums the logs up by itself, and knows nothing of the protocol. It serves `replay`, `sessions` and `live`, and
# `window`, whose totals are the window's; the places of `multi` are its queries' own.
#
# Behind a set that is not within epsilon, has not k members, or speaks of more changes than a log has, stands a line that
# begins with `WRONG`, and the status is 1. It is 2 where a file cannot be read, a name is not in the catalogue, the text has
# no set, or a number is past 2^53, up to which those of awk are exact.
function stop(why) {
    print "counts: " why | "cat 1>&2"
    close("cat 1>&2")
    stopped = 1
    exit 2
}
function bare(field) {
    sub(/\r$/, "", field)
    if (field !~ /^".*"$/) return field
    field = substr(field, 2, length(field) - 2)
    gsub(/""/, "\"", field)
    return field
}
function exact(number) {
    if (number > 9007199254740992 || number < -9007199254740992) stop("a number is past 2^53")
    return number
}
function read_names(file,  line, got) {
    while ((got = (getline line < file)) > 0) if (line !~ /^\r?$/) is_named[names[++count] = bare(line)] = 1
    if (got < 0) stop(file ": cannot be read")
}
function add(m, f, object, change) {
    if (!(object in is_named)) stop(object ": not in the catalogue")
    ended[m, f]++
    name[m, f, ended[m, f]] = object
    by[m, f, ended[m, f]] = exact(change + 0)
}
# Takes the changes of a tick back, whose places are those behind one and up to another.
function take_back(m, f, from, to,  p) {
    for (p = from + 1; p <= to; p++) add(m, f, name[m, f, p], -by[m, f, p])
}
# Begins a tick, which first takes back what leaves the window. Its own changes are those behind `begun`.
function begin_tick(m, f, t,  old) {
    old = t - width
    if (old > 0) take_back(m, f, begun[m, f, old], done[m, f, old])
    begun[m, f, t] = ended[m, f] + 0
}
function read_log(m, file,  f, line, at, t, got) {
    f = ++feeders[m]
    if (width) begin_tick(m, f, t = 1)
    while ((got = (getline line < file)) > 0) {
        if (line ~ /^\r?$/) continue
        at = match(line, /,[^,]*$/)
        if (at) add(m, f, bare(substr(line, 1, at - 1)), bare(substr(line, at + 1)))
        else {
            done[m, f, t] = ended[m, f] + 0
            begin_tick(m, f, ++t)
        }
    }
    if (got < 0) stop(file ": cannot be read")
}
# Goes on to a place: no place of a run ever falls.
function go_to(m, f, place,  p) {
    if (place > ended[m, f] + 0) wrong = wrong "; log " m ":" f " ends at " ended[m, f] + 0
    for (p = reached[m, f] + 1; p <= place; p++) total[name[m, f, p]] = exact(total[name[m, f, p]] + by[m, f, p])
    if (place > reached[m, f]) reached[m, f] = place
}
function option(word, value) {
    if (word == "--objects") read_names(value)
    else if (word == "--k") k = value + 0
    else if (word == "--epsilon") epsilon = exact(value + 0)
    else if (word == "--width") width = value + 0
}
BEGIN {
    for (i = 1; i < ARGC; i++) {
        word = ARGV[i]
        if (word ~ /^[0-9]+=/) logs[++given] = word
        else if (word ~ /^--[^=]*=/) option(substr(word, 1, index(word, "=") - 1), substr(word, index(word, "=") + 1))
        else if (word ~ /^--/) option(word, ARGV[++i])
    }
    for (i = 1; i <= given; i++) read_log(logs[i] + 0, substr(logs[i], index(logs[i], "=") + 1))
    ARGC = 1
    first_k = k
    first_epsilon = epsilon
}
# A restart forgets what was retuned.
$1 == "session" {
    print
    k = first_k
    epsilon = first_epsilon
}
$1 == "set" || $1 == "final" {
    sets++
    wrong = ""
    if ($3 == "k") {
        k = $4 + 0
        epsilon = exact($6 + 0)
    }
    for (at = $3 == "cut" ? 4 : 8; $at != "members"; at++) {
        if (at > NF) stop("a set without members")
        split($at, cut, ":")
        some = split(cut[2], places, ",")
        for (f = 1; f <= some; f++) go_to(cut[1] + 0, f, places[f] + 0)
    }
    print $1, $2
    split("", is_member)
    size = 0
    while (++at <= NF) {
        if (!($at in is_named)) stop($at ": not in the catalogue")
        if ($at in is_member) continue
        is_member[$at] = 1
        for (i = ++size; i > 1 && total[$at] > total[member[i - 1]]; i--) member[i] = member[i - 1]
        member[i] = $at
    }
    for (i = 1; i <= size; i++) printf "  %.0f %s\n", total[member[i]], member[i]
    best = ""
    for (i = 1; i <= count; i++)
        if (!(names[i] in is_member) && (best == "" || total[names[i]] > total[best])) best = names[i]
    if (best != "") printf "  %.0f %s (outside)\n", total[best], best
    if (size != k) wrong = wrong "; " size " members, not " k
    if (best != "" && size && total[member[size]] + epsilon < total[best]) wrong = wrong "; not within epsilon " epsilon
    if (wrong != "") {
        print "WRONG: " $1 " " $2 ": " substr(wrong, 3)
        judged = 1
    }
}
END {
    if (stopped) exit 2
    if (!sets) stop("the text has no set")
    exit judged
}
