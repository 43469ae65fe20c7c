# Draws docs/traces.svg from what the program `traces` prints:
#   cargo run -q --release --manifest-path rust/Cargo.toml --bin traces | awk -f docs/traces.awk > docs/traces.svg

BEGIN {
    FS = ","
    left = 70; wide = 960; high = 130; gap = 110; top = 116; strip = 16; panels = 4
    write = "bits changed"; bus = "address bits"
    name[0] = "source"; title[0] = "Unprotected: the program run as it is, bits changed where it writes"
    name[1] = "expansion"; title[1] = "Dual rail with precharge: its expansion, bits changed where it writes"
    name[2] = "unmended"; title[2] = "Address lines of the expansion without its reads of a table's start"
    name[3] = "bus"; title[3] = "Address lines of the expansion as it is"
    axis["source"] = axis["expansion"] = write; axis["unmended"] = axis["bus"] = bus
    first = "#56b4e9"; second = "#000000"; alarm = "#d55e00"; grey = "#666666"
}

$1 == "key" { key[$2] = $3 }
$1 == "whole" { steps[$2] = $3; differ[$2] = $4 }
$1 == "row" {
    if (!rows) from = $3
    one[$2, $3] = $4; two[$2, $3] = $5
    if ($3 - from + 1 > rows) rows = $3 - from + 1
    # Panels with the same axis have the same scale.
    if ($4 > most[axis[$2]]) most[axis[$2]] = $4
    if ($5 > most[axis[$2]]) most[axis[$2]] = $5
}

function text(x, y, size, colour, anchor, words) {
    printf "<text x=\"%g\" y=\"%g\" font-size=\"%g\" fill=\"%s\" text-anchor=\"%s\">%s</text>\n", x, y, size, colour, anchor, words
}

function box(x, y, w, h, colour) {
    printf "<rect x=\"%g\" y=\"%g\" width=\"%g\" height=\"%g\" fill=\"%s\"/>\n", x, y, w, h, colour
}

function thousands(n) {
    return n >= 1000 ? sprintf("%d,%03d", int(n / 1000), n % 1000) : n
}

function panel(which,    p, y0, row, at, x, n, unit, each, scale) {
    p = name[which]
    y0 = top + which * (high + gap) + high
    scale = most[axis[p]] + most[axis[p]] % 2
    unit = high / scale
    each = wide / rows
    text(left, y0 - high - 14, 16, "#000000", "start", title[which])
    text(left + wide, y0 - high - 14, 14, differ[p] > 0 ? alarm : "#000000", "end", \
        thousands(differ[p]) " of all " thousands(steps[p]) " steps differ")
    for (n = 0; n <= scale; n += 2) {
        box(left, y0 - n * unit, wide, 0.5, "#cccccc")
        text(left - 8, y0 - n * unit + 4, 12, grey, "end", n)
    }
    for (row = 0; row < rows; row++) {
        x = left + row * each
        at = from + row
        if (one[p, at] > 0) box(x, y0 - one[p, at] * unit, each, one[p, at] * unit, first)
        if (two[p, at] > 0) box(x + each * 0.32, y0 - two[p, at] * unit, each * 0.36, two[p, at] * unit, second)
        if (one[p, at] != two[p, at]) box(x, y0 + 11, each, strip - 2, alarm)
    }
    printf "<rect x=\"%g\" y=\"%g\" width=\"%g\" height=\"%g\" fill=\"none\" stroke=\"%s\" stroke-width=\"0.5\"/>\n", \
        left, y0 + 10, wide, strip, grey
    text(left - 8, y0 + strip + 6, 12, grey, "end", "differ")
    for (row = 0; row <= rows; row += 40) text(left + row * each, y0 + strip + 26, 12, grey, "middle", thousands(from + row))
    text(left + wide / 2, y0 + strip + 44, 13, grey, "middle", "step")
    printf "<text transform=\"translate(%g %g) rotate(-90)\" font-size=\"13\" fill=\"%s\" text-anchor=\"middle\">%s</text>\n", \
        left - 38, y0 - high / 2, grey, axis[p]
}

END {
    if (!rows) exit 1
    height = top + panels * high + (panels - 1) * gap + 70
    printf "<svg xmlns=\"http://www.w3.org/2000/svg\" viewBox=\"0 0 %d %d\" font-family=\"sans-serif\">\n", left + wide + 30, height
    print "<title>Bits changed at each step of SIMON32/64 under two keys: unprotected, expanded, and on the address lines</title>"
    box(0, 0, left + wide + 30, height, "#ffffff")
    text(left, 28, 19, "#000000", "start", \
        "SIMON32/64, one plaintext, two keys: bits changed at each of " rows " steps from step " thousands(from) " on")
    box(left, 44, 16, 14, first)
    text(left + 24, 56, 14, "#000000", "start", "key " key[0])
    box(left + 252, 44, 5, 14, second)
    text(left + 266, 56, 14, "#000000", "start", "key " key[1])
    box(left + 494, 44, 16, 14, alarm)
    text(left + 518, 56, 14, "#000000", "start", "steps that differ")
    for (which = 0; which < panels; which++) panel(which)
    print "</svg>"
}
