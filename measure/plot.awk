# Two charts as one SVG: what a call costs by parameters and by octets. In: lines "p|o  X  FUNCTION  COUNT".
function label(v) { return v >= 1000 ? sprintf("%d,%03d", v / 1000, v % 1000) : v "" }
function axis(kind, left, title, most, step,    v, x, y) {
    printf "<text x='%d' y='36' font-weight='bold'>%s</text>\n", left, title
    for (v = 0; v <= most; v += step) {
        x = left + width * v / most
        printf "<line x1='%.1f' y1='%d' x2='%.1f' y2='%d' stroke='#ddd'/>", x, top, x, top + height
        printf "<text x='%.1f' y='%d' text-anchor='middle'>%s</text>\n", x, top + height + 16, label(v)
    }
    for (v = 0; v <= high[kind]; v += tick[kind]) {
        y = top + height - height * v / high[kind]
        printf "<line x1='%d' y1='%.1f' x2='%d' y2='%.1f' stroke='#ddd'/>", left, y, left + width, y
        printf "<text x='%d' y='%.1f' text-anchor='end'>%s</text>\n", left - 6, y + 4, label(v)
    }
    for (i = 1; i <= 3; i++) {
        printf "<polyline fill='none' stroke='%s' stroke-width='2' points='", colour[i]
        for (n = 1; n <= points[kind, name[i]]; n++)
            printf "%.1f,%.1f ", left + width * px[kind, name[i], n] / most, top + height - height * py[kind, name[i], n] / high[kind]
        print "'/>"
        printf "<text x='%d' y='%d' text-anchor='end' fill='%s'>%s</text>\n", left + width - 8, top + height - 8 - 16 * (3 - i), colour[i], shown[i]
    }
}
BEGIN {
    width = 380; height = 260; top = 52
    name[1] = "read"; shown[1] = "reader"; colour[1] = "#0a58a8"
    name[2] = "write"; shown[2] = "writer"; colour[2] = "#b04a00"
    name[3] = "plain"; shown[3] = "plain C reader"; colour[3] = "#666666"
}
{
    n = ++points[$1, $3]
    px[$1, $3, n] = $2
    py[$1, $3, n] = $4
    if ($4 > largest[$1]) largest[$1] = $4
}
END {
    for (k in largest) {
        tick[k] = 1000
        while (largest[k] / tick[k] > 6) tick[k] *= 2
        high[k] = tick[k] * int((largest[k] + tick[k] - 1) / tick[k])
    }
    print "<svg xmlns='http://www.w3.org/2000/svg' width='1060' height='360' font-family='sans-serif' font-size='12'>"
    print "<rect width='1060' height='360' fill='white'/>"
    axis("p", 70, "x86-64 instructions by parameters, three octets each", 64, 16)
    axis("o", 640, "x86-64 instructions by octets, 16 parameters", 4096, 1024)
    print "</svg>"
}
