# Makes the catalogue and the change logs of access logs in the common log format, one log a server:
#
#     awk -f to_logs.awk web1.log web2.log web3.log
#
# writes objects.csv, a path a line in the order in which the paths first come, and 1.csv, 2.csv, .., one `path,1` a
# request. What stands behind a `?` is cut off. A line without a path of 1 to 255 printable characters is passed over.
#
#     awk -v ticks=60 -f to_logs.awk web1.log web2.log web3.log
#
# makes logs for `window`, of which each tick is so many seconds of the logs' own clock, also where nobody asked for a page.
# All servers have the same ticks: the first is that of the first lines, the last that of the latest line. A line that
# stands behind a later one counts in the later one's tick, and one without a time is passed over. The first lines are read
# twice, so each log is a file and no pipe.
function quoted(name) {
    if (name !~ /[",]/) return name
    gsub(/"/, "\"\"", name)
    return "\"" name "\""
}
# The number of the tick that a line stands in, from 1970 on: days by years that begin in March, then seconds, then the zone.
# It is -1 without a time.
function tick_of(day, zone,  at, month, year, days, seconds) {
    if (day !~ /^\[[0-3][0-9]\/[A-Z][a-z][a-z]\/[0-9][0-9][0-9][0-9]:[0-2][0-9]:[0-5][0-9]:[0-6][0-9]$/) return -1
    at = index("MarAprMayJunJulAugSepOctNovDecJanFeb", substr(day, 5, 3))
    if (!at) return -1
    month = int(at / 3)
    year = substr(day, 9, 4) - (month >= 10)
    days = 365 * year + int(year / 4) - int(year / 100) + int(year / 400) + int((153 * month + 2) / 5) + substr(day, 2, 2) - 719469
    seconds = days * 86400 + substr(day, 14, 2) * 3600 + substr(day, 17, 2) * 60 + substr(day, 20, 2)
    if (zone ~ /^[+-][0-9][0-9][0-9][0-9]\]$/)
        seconds -= (substr(zone, 1, 1) "1") * (substr(zone, 2, 2) * 3600 + substr(zone, 4, 2) * 60)
    return int(seconds / ticks)
}
# The tick of the first line of a log that has a time, or -1.
function first_tick(file,  line, part, tick) {
    tick = -1
    while (tick < 0 && (getline line < file) > 0) {
        split(line, part, " ")
        tick = tick_of(part[4], part[5])
    }
    close(file)
    return tick
}
# Ends the ticks of a server before this one.
function go_to(server, tick) {
    for (; reached[server] < tick; reached[server]++) print "tick" > (server ".csv")
    if (tick > last) last = tick
}
BEGIN {
    begin = -1
    for (i = 1; i < ARGC; i++) {
        printf "" > (i ".csv")
        tick = ticks ? first_tick(ARGV[i]) : -1
        if (tick >= 0 && (begin < 0 || tick < begin)) begin = tick
    }
    for (i = 1; i < ARGC; i++) reached[i] = begin
    last = begin
}
# A log without lines is a server too.
FNR == 1 { do server++; while (server < ARGC - 1 && ARGV[server] != FILENAME) }
{
    path = $7
    sub(/\?.*/, "", path)
    if (path !~ /^\/[!-~]*$/ || length(path) > 255) next
    if (ticks) {
        tick = tick_of($4, $5)
        if (tick < 0) next
        go_to(server, tick)
    }
    if (!(path in seen)) { seen[path] = 1; print quoted(path) > "objects.csv" }
    print quoted(path) ",1" > (server ".csv")
}
END { for (i = 1; ticks && i < ARGC; i++) go_to(i, last) }
