# Figures (who|task|size|bytes|seconds|runs|KiB) as bars: MB/s for each task, who and size, on a scale of powers of ten.
BEGIN { FS = "|"; left = 360; wide = 560; bar = 16 }

$2 == "read" || $2 == "write" {
    n++
    name[n] = $2 ", " $3 " MB: " $1
    rate[n] = $4 / $5 / 1e6
    kind[n] = $1 ~ /^pistrovelle/ ? "#1b6ca8" : $1 == "Rust" ? "#c2571a" : $1 == "RTKLIB" ? "#7a7a7a" : "#b9b9b9"
    place[n] = sprintf("%s %09d %03d", $2, $3, n)
}

function x_of(value) { return value <= 1 ? 0 : wide * log(value) / log(100000) }

function escaped(s) { gsub(/&/, "\\&amp;", s); gsub(/</, "\\&lt;", s); return s }

function sort_places(    i, j, t) {
    for (i = 1; i <= n; i++) order[i] = i
    for (i = 2; i <= n; i++)
        for (j = i; j > 1 && place[order[j]] < place[order[j - 1]]; j--) { t = order[j]; order[j] = order[j - 1]; order[j - 1] = t }
}

END {
    sort_places()
    high = n * (bar + 6) + 60
    printf "<svg xmlns=\"http://www.w3.org/2000/svg\" width=\"%d\" height=\"%d\" font-family=\"sans-serif\" font-size=\"12\">\n", left + wide + 70, high
    printf "<rect width=\"100%%\" height=\"100%%\" fill=\"#ffffff\"/>\n"
    for (p = 1; p <= 100000; p *= 10) {
        x = left + x_of(p)
        printf "<line x1=\"%.1f\" y1=\"30\" x2=\"%.1f\" y2=\"%d\" stroke=\"#dddddd\"/>\n", x, x, high - 20
        printf "<text x=\"%.1f\" y=\"20\" text-anchor=\"middle\" fill=\"#555555\">%d</text>\n", x, p
    }
    for (i = 1; i <= n; i++) {
        k = order[i]; y = 36 + (i - 1) * (bar + 6)
        printf "<text x=\"%d\" y=\"%d\" text-anchor=\"end\">%s</text>\n", left - 8, y + 12, escaped(name[k])
        printf "<rect x=\"%d\" y=\"%d\" width=\"%.1f\" height=\"%d\" fill=\"%s\"/>\n", left, y, x_of(rate[k]), bar, kind[k]
        printf "<text x=\"%.1f\" y=\"%d\">%.0f</text>\n", left + x_of(rate[k]) + 5, y + 12, rate[k]
    }
    printf "<text x=\"%d\" y=\"%d\" fill=\"#555555\">MB/s of processor time, medians; each line to the right is ten times as fast</text>\n</svg>\n", left, high - 5
}
