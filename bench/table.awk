# Figures (who|task|size|bytes|seconds|runs|KiB) as tables: reading and writing, then a code of all rows beside questions one by one.
BEGIN { FS = "|" }

function row_key(who, task) { return who "|" task }

{
    key = row_key($1, $2)
    if ($2 == "column" || $2 == "slot") { each[$2, $3] = $5 / $4; if (!($3 in asked)) { asked[$3] = 1; asked_sizes[++asks] = $3 } next }
    if (!(key in seen)) { seen[key] = 1; keys[++rows] = key; who_of[key] = $1; task_of[key] = $2 }
    if (!($3 in sized)) { sized[$3] = 1; sizes[++columns] = $3 }
    seconds[key, $3] = $5; bytes[$3] = $4; peak[key, $3] = $7; runs[$3] = $6
    if (rows == 1) ours = $1
}

function rate(key, size) { return bytes[size] / seconds[key, size] / 1e6 }

function ratio(key, size,    other) {
    other = row_key(ours, task_of[key])
    if (ours ~ /emulated/ || !((key, size) in seconds) || !((other, size) in seconds)) return "-"
    return sprintf("%.2f", seconds[key, size] / seconds[other, size])
}

# By how much a byte costs more in the largest text than in the smallest.
function growth(key,    a, b) {
    a = sizes[1]; b = sizes[columns]
    if (!((key, a) in seconds) || !((key, b) in seconds)) return "-"
    return sprintf("%.2f", (seconds[key, b] / bytes[b]) / (seconds[key, a] / bytes[a]))
}

function line_of(key,    i, size, text) {
    text = "| " task_of[key] " | " who_of[key]
    for (i = 1; i <= columns; i++) {
        size = sizes[i]
        text = text " | " ((key, size) in seconds ? sprintf("%.1f", rate(key, size)) : "-")
    }
    size = sizes[columns]
    return text " | " ratio(key, size) " | " growth(key) " | " sprintf("%.1f", peak[key, size] / 1024) " |"
}

END {
    head = "| task | who"; rule = "|---|---"
    for (i = 1; i <= columns; i++) { head = head " | " sizes[i] " MB, MB/s"; rule = rule "|---" }
    print head " | time by ours | growth | peak, MiB |"
    print rule "|---|---|---|"
    for (i = 1; i <= rows; i++) print line_of(keys[i])
    print ""
    print "MB/s are 10^6 bytes a second of processor time, medians. Time by ours and peak memory are for the largest text. The text itself is in the peak"
    print "memory, but not RTKLIB's, which reads a file. Rust's writer takes its own memory, in its time. Growth is the time a byte takes in the largest"
    print "text by that in the smallest."
    if (asks == 0) exit
    print ""
    print "| text | a code of all rows (`column`), ns a row | one question (`slot`), ns a row |"
    print "|---|---|---|"
    for (i = 1; i <= asks; i++) {
        size = asked_sizes[i]
        printf "| %s MB | %.1f | %.0f |\n", size, 1e9 * each["column", size], 1e9 * each["slot", size]
    }
}
