# The line of a file that a refusal is about, where it can be said: awk -v refusal=N -v command=NAME -f line.awk FILE prints its number, or nothing.
# For a person who mends the file; the refusal itself is the program's. The file is one that the program has refused by N.
BEGIN { FS = "," }

# a mask or form in hexadecimal
function hex(s) { return s ~ /^(0|[1-9a-f][0-9a-f]*)$/ && length(s) <= 16 }

# its bits
function bits(s, first) {
  first = index("123456789abcdef", substr(s, 1, 1))
  return s == "0" ? 0 : 4 * (length(s) - 1) + (first >= 8 ? 4 : first >= 4 ? 3 : first >= 2 ? 2 : 1)
}

# a cost in decimal
function cost(s) { return s ~ /^(0|[1-9][0-9]*)$/ && length(s) <= 5 && s + 0 <= 65535 }

# what the line should be: fields with letters, F a mask or form, C a cost, and otherwise themselves
function expected(line) {
  if (command == "check" || command == "turn") {
    if (line == 3) return "a,b"
    if (line <= 3 + k) return "F,F"
    return line == 4 + k ? "row" : "F"
  }
  if (kind != "list") return ""
  if (line == 3) return "role,form,cost"
  return line <= 3 + q ? "g,F,C" : line <= 3 + q + r ? "t,F,0" : ""
}

function misshapen(want, n, part, i) {
  n = split(want, part, ",")
  if (NF != n || want == "") return 1
  for (i = 1; i <= n; i++) if (part[i] == "F" ? !hex($i) : part[i] == "C" ? !cost($i) : $i "" != part[i] "") return 1
  return 0
}

# whether a mask or form of the line has a bit outside its width
function too_wide(want) {
  if (want == "F,F") return bits($1) > n || bits($2) > m
  if (want == "F") return bits($1) > k
  return want ~ /^[gt],F/ && bits($2) > p
}

# whether a factor is zero, or a generator is zero or repeats an earlier one
function zero_or_again(want) {
  if (want == "F,F") return $1 == "0" || $2 == "0"
  return want == "g,F,C" && ($2 == "0" || seen[$2]++)
}

function sized() {
  kind = $1; p = $2; q = $3; r = $4; k = $5
  n = kind == "mat" ? p * q : p
  m = kind == "mat" ? q * r : q
}

NR == 1 { if (refusal == 1 && $0 != "kind,p,q,r,k") { print 1; exit }; next }
NR == 2 { if (refusal <= 4 || refusal == 8) { print 2; exit }; sized(); next }
{
  want = expected(NR)
  if (refusal == 5 ? misshapen(want) : refusal == 6 ? too_wide(want) : refusal == 7 && zero_or_again(want)) { print NR; exit }
}
