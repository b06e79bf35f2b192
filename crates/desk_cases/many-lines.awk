# Prints data/many-lines, an input for `desk` whose answers fill its buffers several times: awk -f many-lines.awk > data/many-lines
# What `desk` prints for it stands in the file stdout under its heading; the twin's desk (twin/build.sh) printed it.
function next_below(n) { seed = (seed * 16807) % 2147483647; return seed % n }
function digits(n, text) { text = 1 + next_below(9); while (--n > 0) text = text next_below(10); return text }
function long_line(n, text) { text = "x"; while (length(text) < n) text = text text; return substr(text, 1, n) }
function bad(kind) {
    if (kind == 0) return ""
    if (kind == 1) return "t=" t " op=ainc key=A rate=60 n=1 draw=0"
    if (kind == 2) return "t=" t "  op=ainc key=a rate=60 n=1 draw=0"
    if (kind == 3) return "t=18446744073709551616 op=aget key=a rate=0 n=0 draw=0"
    if (kind == 4) return "t=" t " op=sinc key=a rate=60 n=1 draw=0\r"
    if (kind == 5) return "t=" t " op=sget key=" long_line(33) " rate=0 n=0 draw=0"
    if (kind == 6) return long_line(190 + next_below(30))
    return long_line(400 + next_below(900))
}
BEGIN {
    seed = 20261
    split("ainc ainc aget sinc sinc sinc sget", ops, " ")
    split("60 60 600 6000 120000 0 9007199254740992", rates, " ")
    split("0 1 1 2 5 20 9007199254740993", counts, " ")
    print "window=10 bucket=100 factor=2 cache=100"
    for (i = 1; i <= 3600; i++) {
        if (i % 1200 == 600) print long_line(70000)
        if (next_below(25) == 0) { print bad(next_below(8)); continue }
        t += next_below(8) ? next_below(40) : next_below(3000)
        now = next_below(40) ? t : t - (t > 99 ? next_below(100) : 0)
        key = next_below(30) ? "c" next_below(3) : "spare" digits(2)
        draw = next_below(3) ? digits(15) : (next_below(40) ? 0 : "9007199254740992")
        printf "t=%.0f op=%s key=%s rate=%s n=%s draw=%s\n", now, ops[1 + next_below(7)], key, rates[1 + next_below(7)], counts[1 + next_below(7)], draw
    }
}
