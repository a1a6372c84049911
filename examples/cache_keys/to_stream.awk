# Makes a stream of what a cache node is asked for, as `redis-cli monitor` prints it, one `key,1` a read:
#
#     redis-cli monitor | awk -f to_stream.awk | topk monitor .. --skip-bad yes -
#
# Reads are the commands in `reads` below, and each key of an `MGET`. A key stands as it is printed, escapes too. One with a space or of
# more than 255 letters is passed over, and so is every other line, as to_logs.awk does. A key that the catalogue does not have is a bad
# line, which `--skip-bad yes` passes over.
function quoted(name) {
    if (name !~ /[",]/) return name
    gsub(/"/, "\"\"", name)
    return "\"" name "\""
}
# Cuts the quoted words of a line out, and answers how many there are.
function words_of(line,  some) {
    sub(/^[^"]*\] /, "", line)
    while (match(line, /^"([^"\\]|\\.)*" ?/)) {
        word[++some] = substr(line, 2, RLENGTH - 1)
        sub(/" ?$/, "", word[some])
        line = substr(line, RLENGTH + 1)
    }
    return some
}
BEGIN { reads = " GET MGET GETRANGE STRLEN EXISTS HGET HMGET HGETALL LRANGE SMEMBERS SISMEMBER ZRANGE ZSCORE " }
/^[0-9]+\.[0-9]+ \[/ {
    some = words_of($0)
    command = toupper(word[1])
    if (some < 2 || !index(reads, " " command " ")) next
    for (i = 2; i <= (command == "MGET" ? some : 2); i++)
        if (word[i] ~ /^[!-~]+$/ && length(word[i]) <= 255) print quoted(word[i]) ",1"
    fflush()
}
