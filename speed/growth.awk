# The times of speed/bench.c as a picture: the judge's time against the bytes of the file, a colour a flow, the screen a whole
# line and the peer a broken one.
$2 == "judge" {
    if (!($1 in colour)) { colour[$1] = ++flows; name[flows] = $1 }
    points = ++count[$1]
    bytes[$1, points] = $3; peer[$1, points] = $4; screen[$1, points] = $5
    if ($3 > widest) widest = $3
    if ($4 > highest) highest = $4
    if ($5 > highest) highest = $5
}
function across(b) { return 60 + 380 * b / widest }
function up(t) { return 260 - 230 * t / highest }
function line(flow, times, style,    i, path) {
    path = across(0) "," up(0)
    for (i = 1; i <= count[flow]; i++) path = path sprintf(" %.1f,%.1f", across(bytes[flow, i]), up(times[flow, i]))
    printf "<polyline points=\"%s\" fill=\"none\" stroke=\"%s\" %s/>\n", path, hue[colour[flow]], style
}
END {
    split("#1b6ca8 #c0392b #1e8449 #8e44ad #b9770e #34495e", hue, " ")
    print "<svg xmlns=\"http://www.w3.org/2000/svg\" width=\"600\" height=\"310\" font-family=\"sans-serif\" font-size=\"11\">"
    print "<rect width=\"600\" height=\"310\" fill=\"white\"/>"
    print "<polyline points=\"60,30 60,260 440,260\" fill=\"none\" stroke=\"black\"/>"
    printf "<text x=\"60\" y=\"20\">judging a file, ms (whole: screen, broken: C peer)</text>\n"
    printf "<text x=\"54\" y=\"%.1f\" text-anchor=\"end\">%.1f</text>\n", up(highest) + 4, highest / 1000000
    printf "<text x=\"54\" y=\"264\" text-anchor=\"end\">0</text>\n"
    split("65536 262144 1048576", mark, " "); split("64 KiB,256 KiB,1 MiB", label, ",")
    for (i = 1; i <= 3; i++) printf "<text x=\"%.1f\" y=\"%d\" text-anchor=\"middle\">%s</text>\n", across(mark[i]), 276, label[i]
    for (k = 1; k <= flows; k++) {
        line(name[k], screen, "stroke-width=\"2\"")
        line(name[k], peer, "stroke-dasharray=\"5,4\"")
        printf "<text x=\"470\" y=\"%d\" fill=\"%s\">%s</text>\n", 40 + 18 * k, hue[k], name[k]
    }
    print "</svg>"
}
