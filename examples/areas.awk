# The area of each error whose corners were listed, in square units of the source: awk -v unit=RESOLUTION -f areas.awk CORNERS REPLIES
# CORNERS has the lines `corners R H H2`, and REPLIES their replies.
function value(text,  part) { return split(text, part, "/") == 2 ? part[1] / part[2] : text + 0 }
function cell_area(  i, side, low, high, sum) {
    low = high = 1
    for (i = 2; i <= n; i++) {
        side = (x[n] - x[1]) * (y[i] - y[1]) - (y[n] - y[1]) * (x[i] - x[1])
        if (side <= 0) { sum += x[low] * y[i] - x[i] * y[low]; low = i }
        if (side >= 0) { sum -= x[high] * y[i] - x[i] * y[high]; high = i }
    }
    n = 0
    return sum / 2
}
$1 == "corners" { key[++keys] = $2 " " $3 " " $4; next }
$1 == "corner" && $2 != cell { area += cell_area(); cell = $2 }
$1 == "corner" { x[++n] = value($3); y[n] = value($4) }
$1 == "total" { print key[++error] ": " (area + cell_area()) * unit * unit; area = cell = 0 }
