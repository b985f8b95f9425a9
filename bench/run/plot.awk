# Makes a plot (SVG) of a table of rates: for each shelf and number of nodes, how many commands a second `make` does at 1,000, 5,000 and
# 15,000 lines.
BEGIN {
    FS = " *[|] *"
    left = 70; top = 40; wide = 420; high = 300
    split("#1f77b4 #d62728 #2ca02c #9467bd", colour, " ")
    split("none 6,3 2,3", dash, " ")
}

$2 == "make" {
    if (!($3 in shelf)) { shelves++; shelf[$3] = shelves; name[shelves] = $3 }
    if (!($4 in place)) { sizes++; place[$4] = sizes; count[sizes] = $4 }
    key = shelf[$3] SUBSEP place[$4]
    points[key] = points[key] x($5) "," "Y" $7 " "
    rates[++rows] = $7
    if ($7 > most) most = $7
}

# lines on a logarithmic axis from 1,000 to 15,000
function x(lines) { return sprintf("%.1f", left + wide * log(lines / 1000) / log(15)) }

function y(rate) { return sprintf("%.1f", top + high * (1 - rate / most)) }

function text(at, up, anchor, words) {
    printf "<text x=\"%s\" y=\"%s\" text-anchor=\"%s\">%s</text>\n", at, up, anchor, words
}

function drawn(list,    n, i, p, out, pair) {
    n = split(list, p, " ")
    for (i = 1; i <= n; i++) {
        split(p[i], pair, ",Y")
        out = out pair[1] "," y(pair[2]) " "
    }
    return out
}

END {
    step = 20000
    most = step * (int(most / step) + 1)
    print "<svg xmlns=\"http://www.w3.org/2000/svg\" width=\"760\" height=\"420\" font-family=\"sans-serif\" font-size=\"12\">"
    print "<rect width=\"760\" height=\"420\" fill=\"white\"/>"
    text(left, 20, "start", "delos_sim make: commands a second, by logged lines")
    for (r = 0; r <= most; r += step) {
        printf "<line x1=\"%d\" x2=\"%d\" y1=\"%s\" y2=\"%s\" stroke=\"#ddd\"/>\n", left, left + wide, y(r), y(r)
        text(left - 8, y(r) + 4, "end", r)
    }
    split("1000 5000 15000", ticks, " ")
    for (t = 1; t <= 3; t++) text(x(ticks[t]), top + high + 20, "middle", ticks[t])
    for (s = 1; s <= shelves; s++) for (n = 1; n <= sizes; n++) {
        printf "<polyline fill=\"none\" stroke=\"%s\" stroke-width=\"2\" stroke-dasharray=\"%s\" points=\"%s\"/>\n", colour[s], dash[n], drawn(points[s SUBSEP n])
        up = top + 20 * ((s - 1) * sizes + n)
        printf "<line x1=\"%d\" x2=\"%d\" y1=\"%d\" y2=\"%d\" stroke=\"%s\" stroke-width=\"2\" stroke-dasharray=\"%s\"/>\n", left + wide + 20, left + wide + 50, up - 4, up - 4, colour[s], dash[n]
        text(left + wide + 56, up, "start", (name[s] ~ /,/ ? "default" : name[s]) ", " count[n] (count[n] == 1 ? " node" : " nodes"))
    }
    print "</svg>"
}
