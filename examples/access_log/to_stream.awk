# Makes a stream of an access log in the common log format while it grows, one `path,1` a request:
#
#     tail -n 0 -F access.log | awk -f to_stream.awk | topk monitor .. --skip-bad yes -
#
# What stands behind a `?` is cut off. A line without a path of 1 to 255 printable characters is passed over, as to_logs.awk does.
# A path that the catalogue does not have is a bad line, which `--skip-bad yes` passes over. An awk that first fills a block wants
# to be told not to, as `mawk -W interactive -f to_stream.awk`.
function quoted(name) {
    if (name !~ /[",]/) return name
    gsub(/"/, "\"\"", name)
    return "\"" name "\""
}
{
    path = $7
    sub(/\?.*/, "", path)
    if (path !~ /^\/[!-~]*$/ || length(path) > 255) next
    print quoted(path) ",1"
    fflush()
}
