# Makes the catalogue and the change logs of what cache nodes were asked for, one log a node, as `redis-cli monitor` writes it:
#
#     awk -v ticks=10 -f to_logs.awk node1.txt node2.txt node3.txt
#
# writes objects.csv, a key a line in the order in which they first come, and 1.csv, 2.csv, .., one `key,1` a read. Reads are
# the commands in `reads` below, and each key of an `MGET`. A key stands as it is printed, escapes too. One with a space or of
# more than 255 letters is passed over, so is every other line.
#
# Each tick is so many seconds of the nodes' clocks, also where nobody read, and all nodes have the same ticks, from the
# first line of all to the latest. Without `ticks` there are none, and the logs serve `replay`. The first lines are read
# twice, so each log is a file and no pipe.
function quoted(name) {
    if (name !~ /[",]/) return name
    gsub(/"/, "\"\"", name)
    return "\"" name "\""
}
# The tick of a line, or -1 where it does not begin with a time.
function tick_of(line) {
    return line ~ /^[0-9]+\.[0-9]+ \[/ ? int(substr(line, 1, index(line, " ") - 1) / ticks) : -1
}
function first_tick(file,  line, tick) {
    tick = -1
    while (tick < 0 && (getline line < file) > 0) tick = tick_of(line)
    close(file)
    return tick
}
# Ends the ticks of a node before this one.
function go_to(node, tick) {
    for (; reached[node] < tick; reached[node]++) print "tick" > (node ".csv")
    if (tick > last) last = tick
}
# Cuts the quoted words of a line out, and answers how many there are.
function words_of(line,  some) {
    sub(/^[^"]*\] /, "", line)
    while (match(line, /^"([^"\\]|\\.)*" ?/)) {
        word[++some] = substr(line, 2, RLENGTH - 1)
        sub(/" ?$/, "", word[some])
        line = substr(line, RLENGTH + 1)
    }
    return some
}
function count(key) {
    if (key !~ /^[!-~]+$/ || length(key) > 255) return
    if (!(key in seen)) { seen[key] = 1; print quoted(key) > "objects.csv" }
    print quoted(key) ",1" > (node ".csv")
}
BEGIN {
    reads = " GET MGET GETRANGE STRLEN EXISTS HGET HMGET HGETALL LRANGE SMEMBERS SISMEMBER ZRANGE ZSCORE "
    begin = -1
    for (i = 1; i < ARGC; i++) {
        printf "" > (i ".csv")
        tick = ticks ? first_tick(ARGV[i]) : -1
        if (tick >= 0 && (begin < 0 || tick < begin)) begin = tick
    }
    for (i = 1; i < ARGC; i++) reached[i] = begin
    last = begin
}
# A file without lines is a node too.
FNR == 1 { do node++; while (node < ARGC - 1 && ARGV[node] != FILENAME) }
/^[0-9]+\.[0-9]+ \[/ {
    some = words_of($0)
    command = toupper(word[1])
    if (some < 2 || !index(reads, " " command " ")) next
    if (ticks) go_to(node, tick_of($0))
    for (i = 2; i <= (command == "MGET" ? some : 2); i++) count(word[i])
}
END { for (i = 1; ticks && i < ARGC; i++) go_to(i, last) }
