# An edge list, line by line, for join-times, find-setup and rows-to-vcd: all its forms, as docs/FORMATS.md has them. It
# judges nothing, since the program does.
#
# read_row(TEXT) takes the next line of the list. Then `row_edges` is how many edges the line gives, `row_time` their
# time in ns, and edge_line[K] and edge_level[K], K from 1 on, are the line and the level of each.

# The number of decimal digits. Some awks read digits behind a 0 as octal ones, so none are handed to them.
function decimal(digits) {
    sub(/^0+/, "", digits)
    return digits + 0
}

# The time in ns of seconds with up to nine decimals.
function seconds_in_ns(text, parts) {
    split(text, parts, ".")
    return decimal(parts[1]) * 1000000000 + ("1" substr(parts[2] "000000000", 1, 9)) - 1000000000
}

function add_edge(line, level) {
    if ((line in level_of) && level_of[line] == level) return
    level_of[line] = level
    edge_line[++row_edges] = line
    edge_level[row_edges] = level
}

function read_row(text, fields, count, i) {
    row_edges = 0
    sub(/\r$/, "", text)
    if (++rows_read == 1 && text ~ /^# version 2 unit=[0-9]+ns$/) { unit = decimal(substr(text, 18)); return }
    if (text == "" || text ~ /^#/) return
    if (!formed) {
        formed = 1
        wide = text ~ /^Time \[s\]/
        if (wide) return
    }
    count = split(text, fields, ",")
    for (i = 1; i <= count; i++) sub(/^ +/, "", fields[i])
    if (wide) row_time = seconds_in_ns(fields[1])
    else if (!unit) row_time = decimal(fields[1])
    else if (fields[1] ~ /^\+/) row_time += unit * decimal(substr(fields[1], 2))
    else row_time = unit * decimal(fields[1])
    if (wide) for (i = 2; i <= count; i++) add_edge(i - 2, fields[i])
    else add_edge(decimal(fields[2]), fields[3])
}
