# Changes every case of a list of value lines (tests/differential/README.md, "The lists") that has what `what` names, and prints the cases:
#   value     the last variable's value of an accepted case, or one more where it has none        refusal   a refused case, told as one that leaves nothing known
# Into the file `wanted` goes what a replay must say of it: that exactly these cases differ.

function other(row,    last) {
  last = substr(row, length(row))
  if (last == ".") return row "1"
  return substr(row, 1, length(row) - 1) (last == "1" ? 0 : 1)
}

NR == 1 { cases = $1; next }

{
  if ((what == "refusal") == ($3 == "-")) {
    $3 = what == "refusal" ? "." : other($3)
    differing++
    printf "values: case %d differs\n", NR - 1 > wanted
  }
  print
}

END { printf "values: %d of %d cases differ\n", differing, cases > wanted }
