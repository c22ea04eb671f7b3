# Draws the listing of a circuit as a picture in SVG. Wires go from column to column; one that is used beyond the next
# column has a lane in each column that it passes, so that none runs through a gate. Lines `measured WIRE NOISE BOUND`
# before the listing give the measured noise of wires.

BEGIN {
  STEP = 132; HALF = 33; HIGH = 21; TALL = 76; THIN = 26; MARGIN = 30; LINE = 16; MOST = 20; BOX = 190; FULL = 45
  # of each set of parameters t, h and b, which give the noise bound of an input
  cells = split("p8 257 4 2 p32 257 8 4 p64 257 8 4 q32 65537 8 4 q512 65537 4 1", cell, " ")
  for (i = 1; i <= cells; i += 4)
    fresh[cell[i]] = (cell[i + 1] - 1) / 2 + cell[i + 1] * cell[i + 3] * (2 * cell[i + 2] + 1)
  wires = outs = gates = columns = 0
}

$1 == "measured" { noise[$2] = $3; measured = 1; next }

$1 == "params" { params = $2; next }

$1 == "in" { label[wires] = $2; kind[wires] = "in"; bound[wires] = fresh[params]; depth[wires++] = 0; next }

$1 == "vector" { next }

$1 == "out" { title[outs] = $2; cut_into_runs(outs++); next }

# WIRE KIND CONSTANT OPERAND .. : BOUND
NF > 3 {
  first = $2 == "Add" || $2 == "Sub" || $2 == "Mul" ? 3 : NF - 2
  kind[wires] = label[wires] = $2
  for (i = 3; i < first; i++) label[wires] = label[wires] " " $i
  depth[wires] = 1
  for (i = first; i < NF - 1; i++) {
    operand[wires, taken[wires]++] = $i
    if (depth[$i] >= depth[wires]) depth[wires] = depth[$i] + 1
  }
  for (i = first; i < NF - 1; i++) reach($i, depth[wires])
  bound[wires] = $NF
  if (depth[wires] > columns) columns = depth[wires]
  gates++; wires++
}

END {
  if (params == "") exit 1
  columns++
  for (o = 0; o < outs; o++)
    for (r = 0; r < runs[o]; r++) if (source[o, r] != "") reach(source[o, r], columns)
  for (c = 0; c < columns; c++) place(c)
  place_outputs()
  draw()
}

# a wire is used in that column
function reach(wire, column) { if (column > last[wire]) last[wire] = column }

# The elements of an output as runs: one number, or slots of one wire that rise by one.
function cut_into_runs(out,    i, r, part, wire, value, goes_on) {
  r = -1
  for (i = 4; i <= NF; i++) {
    wire = split($i, part, "@") == 2 ? part[1] : ""
    value = wire == "" ? $i : part[2]
    goes_on = r >= 0 && wire == source[out, r] && value == upto[out, r] + (wire != "")
    if (!goes_on) { r++; source[out, r] = wire; begins[out, r] = value; from[out, r] = i - 4 }
    upto[out, r] = value
    to[out, r] = i - 4
  }
  runs[out] = r + 1
}

# What stands in a column from above: lanes and gates in the order of where their wires come from, side by side.
function place(c,    w, i, count, sum) {
  count = 0
  for (w = 0; w < wires; w++) if (depth[w] < c && last[w] > c) put(count++, w, at[w, c - 1], THIN)
  for (w = 0; w < wires; w++) if (depth[w] == c) {
    sum = 0
    for (i = 0; i < taken[w]; i++) sum += at[operand[w, i], c - 1]
    put(count++, w, c ? sum / taken[w] : w * TALL, TALL)
  }
  spread(count)
  for (i = 0; i < count; i++) at[item[i], c] = spot[i]
}

# into place i and up, behind all that are not below it
function put(i, thing, wanted, height) {
  for (; i > 0 && want[i - 1] > wanted; i--) {
    item[i] = item[i - 1]; want[i] = want[i - 1]; high[i] = high[i - 1]
  }
  item[i] = thing; want[i] = wanted; high[i] = height
}

# places for all items that are near the wanted ones and do not overlap
function spread(count,    i, off) {
  off = 0
  for (i = 0; i < count; i++) {
    spot[i] = want[i]
    if (i && spot[i] < spot[i - 1] + (high[i - 1] + high[i]) / 2) spot[i] = spot[i - 1] + (high[i - 1] + high[i]) / 2
    off += (spot[i] - want[i]) / count
  }
  for (i = 0; i < count; i++) {
    spot[i] -= off
    if (spot[i] - high[i] / 2 < highest) highest = spot[i] - high[i] / 2
    if (spot[i] + high[i] / 2 > lowest) lowest = spot[i] + high[i] / 2
  }
}

function place_outputs(    o, r, sum, count) {
  for (o = 0; o < outs; o++) {
    shown[o] = runs[o] > MOST ? MOST : runs[o]
    sum = count = 0
    for (r = 0; r < shown[o]; r++) if (source[o, r] != "") { sum += at[source[o, r], columns - 1]; count++ }
    # (outputs keep their order: none is wanted above the one before)
    sum = count ? sum / count : o ? want[o - 1] : 0
    put(o, o, o && sum < want[o - 1] ? want[o - 1] : sum, LINE * (shown[o] + (runs[o] > MOST) + 2))
  }
  spread(outs)
  for (o = 0; o < outs; o++) { middle[o] = spot[o]; height[o] = high[o] - LINE / 2 }
}

# how many bits it is below half the modulus
function below(size) { return size < 1 ? 57 : log(2 ^ 57 / size) / log(2) }

function bits(wire) { return below(bound[wire]) }

function across(c) { return MARGIN + HALF + c * STEP }

# green where many bits are left, red where none is; mixed with so much white
function tint(left, white,    part, red, green, blue) {
  part = left / FULL
  if (part > 1) part = 1
  if (part < 0) part = 0
  if (part > 0.5) { part = 2 * part - 1; red = 236 - 190 * part; green = 176 - 22 * part; blue = 40 + 48 * part }
  else { part = 2 * part; red = 204 + 32 * part; green = 40 + 136 * part; blue = 40 }
  return sprintf("rgb(%d,%d,%d)", red + (255 - red) * white, green + (255 - green) * white, blue + (255 - blue) * white)
}

function text(x, y, size, anchor, said) {
  printf "<text x=\"%.1f\" y=\"%.1f\" font-size=\"%d\" text-anchor=\"%s\">%s</text>\n", x, y, size, anchor, said
}

# A wire from the middle of the column before to the middle of this one, at that height. Gates are drawn over it.
function join(wire, c, height,    x1, x2, half) {
  x1 = across(c - 1) + HALF; x2 = across(c) - HALF; half = (x1 + x2) / 2
  printf "<path d=\"M%.1f %.1fh%dC%.1f %.1f %.1f %.1f %.1f %.1fh%d\" stroke=\"%s\"/>\n", x1 - HALF, at[wire, c - 1], HALF, \
    half, at[wire, c - 1], half, height, x2, height, HALF, tint(bits(wire), 0)
}

function draw_wires(    w, c, i, o, r, drawn) {
  print "<g fill=\"none\" stroke-width=\"2\">"
  for (w = 0; w < wires; w++) {
    for (c = depth[w] + 1; c < last[w]; c++) join(w, c, at[w, c])
    for (i = 0; i < taken[w]; i++) join(operand[w, i], depth[w], at[w, depth[w]] + (taken[w] == 2 ? 12 * i - 6 : 0))
  }
  for (o = 0; o < outs; o++) {
    split("", drawn)
    for (r = 0; r < shown[o]; r++) if (source[o, r] != "" && !drawn[source[o, r]]++) join(source[o, r], columns, row_of(o, r))
  }
  print "</g>"
}

function row_of(o, r) { return middle[o] - height[o] / 2 + LINE * (r + 1.75) }

# corners in parts of half a width and half a height; round is the radius of the corners of a box
function outline(what) {
  if (what == "in") return "-1,-0.8 0.7,-0.8 1,0 0.7,0.8 -1,0.8"
  if (what == "Neg") return "-0.9,-1.1 1,0 -0.9,1.1"
  if (what == "Relin") return "-1.1,0 0,-1.2 1.1,0 0,1.2"
  if (what == "Scale") return "-1,0 -0.65,-1 0.65,-1 1,0 0.65,1 -0.65,1"
  if (what == "Shift") return "-0.7,-0.9 1,-0.9 0.7,0.9 -1,0.9"
  if (what == "Weigh") return "-1,-1 1,-0.6 1,0.6 -1,1"
  return ""
}

function shape(what, x, y,    corner, count, i, xy, points) {
  count = split(outline(what), corner, " ")
  for (i = 1; i <= count; i++) {
    split(corner[i], xy, ",")
    points = points sprintf("%.1f,%.1f ", x + xy[1] * HALF, y + xy[2] * HIGH)
  }
  if (count) return "<polygon points=\"" points "\"/>"
  if (what == "Add" || what == "Sub") return sprintf("<ellipse cx=\"%.1f\" cy=\"%.1f\" rx=\"%d\" ry=\"%d\"/>", x, y, HALF * 0.8, HIGH)
  return sprintf("<rect x=\"%.1f\" y=\"%.1f\" width=\"%d\" height=\"%d\" rx=\"%d\"/>", x - HALF, y - HIGH, 2 * HALF, 2 * HIGH, what == "Turn" ? HIGH : 0)
}

function draw_nodes(    w, i, of, left, short) {
  for (w = 0; w < wires; w++) {
    of = ""
    for (i = 0; i < taken[w]; i++) of = of " " operand[w, i]
    left = bits(w)
    short = length(label[w]) > 11 ? substr(label[w], 1, 9) ".." : label[w]
    printf "<g fill=\"%s\" stroke=\"%s\" stroke-width=\"1.5\"><title>wire %d: %s%s, bound %s%s</title>%s</g>\n", \
      tint(left, 0.6), tint(left, 0), w, label[w], of, bound[w], w in noise ? ", noise " noise[w] : "", \
      shape(kind[w], across(depth[w]), at[w, depth[w]])
    text(across(depth[w]), at[w, depth[w]] + 4, length(short) > 9 ? 10 : 12, "middle", short)
    text(across(depth[w]) - HALF, at[w, depth[w]] - 25, 10, "start", w)
    text(across(depth[w]), at[w, depth[w]] + 34, 10, "middle", sprintf("%.1f", left) (w in noise ? sprintf(" / %.1f", below(noise[w])) : ""))
  }
}

function span(first, final) { return first == final ? first : first "-" final }

function draw_outputs(    o, r, left) {
  left = across(columns) - HALF
  for (o = 0; o < outs; o++) {
    printf "<rect x=\"%.1f\" y=\"%.1f\" width=\"%d\" height=\"%.1f\" fill=\"rgb(244,244,244)\" stroke=\"rgb(90,90,90)\"/>\n", \
      left, middle[o] - height[o] / 2, BOX, height[o]
    text(left + 8, middle[o] - height[o] / 2 + LINE, 12, "start", title[o])
    for (r = 0; r < shown[o]; r++)
      text(left + 8, row_of(o, r) + 4, 11, "start", "[" span(from[o, r], to[o, r]) "] = " \
        (source[o, r] == "" ? begins[o, r] : source[o, r] "@" span(begins[o, r], upto[o, r])))
    if (runs[o] > MOST) text(left + 8, row_of(o, r) + 4, 11, "start", "and " runs[o] - MOST " more")
  }
}

function draw_legend(y,    left) {
  for (left = FULL; left > 0; left--)
    printf "<rect x=\"%d\" y=\"%d\" width=\"6\" height=\"12\" fill=\"%s\"/>\n", MARGIN + 6 * (FULL - left), y, tint(left, 0)
  text(MARGIN, y + 26, 11, "start", FULL)
  text(MARGIN + 6 * FULL, y + 26, 11, "end", "0")
  text(MARGIN + 6 * FULL + 12, y + 10, 11, "start", "bits that a bound is below 2^57; where none is left a circuit is refused")
  if (measured) text(MARGIN + 6 * FULL + 12, y + 26, 11, "start", "at a wire: those of its bound / of its measured noise")
}

function draw(    width, tall, w, least) {
  width = across(columns) - HALF + BOX + MARGIN
  if (width < 760) width = 760
  tall = lowest - highest + 130
  least = FULL * 2
  for (w = 0; w < wires; w++) if (bits(w) < least) least = bits(w)
  printf "<svg xmlns=\"http://www.w3.org/2000/svg\" width=\"%d\" height=\"%d\" font-family=\"sans-serif\">\n", width, tall
  printf "<rect width=\"100%%\" height=\"100%%\" fill=\"white\"/>\n"
  text(MARGIN, 28, 14, "start", "params " params ", gates " gates (wires ? sprintf(", least bits left %.1f", least) : ""))
  printf "<g transform=\"translate(0 %.1f)\">\n", 50 - highest
  draw_wires(); draw_nodes(); draw_outputs()
  print "</g>"
  draw_legend(tall - 50)
  print "</svg>"
}
