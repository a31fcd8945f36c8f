# Changes one digit of every case of a list (tests/differential/README.md, "The lists") that has the word `what`, and prints the list:
#   flag   read: whether the Rust accepts        kind, bound   read: of the first row
#   term   read: the code of the last term, where the last row has terms        byte   write: the last byte written
# Into the file `wanted` goes what a replay must say of it: that exactly these cases differ.

function other(word,    digit) {
  digit = substr(word, length(word))
  return substr(word, 1, length(word) - 1) (digit == "0" ? 1 : digit - 1)
}

function change_read(    flag, rows, at, row, terms) {
  flag = $2 > 0 ? 4 : 3
  if (what == "flag") { $flag = other($flag); return 1 }
  rows = $flag == 1 ? $(flag + 1) : 0
  if (rows == 0) return 0
  if (what == "kind") { $(flag + 2) = other($(flag + 2)); return 1 }
  if (what == "bound") { $(flag + 3) = other($(flag + 3)); return 1 }
  for (at = flag + 2; row < rows; row++) { terms = $at == 0 ? 0 : $(at + 2); at += 3 + 2 * terms }
  if (terms > 0) $NF = other($NF)
  return terms > 0
}

NR == 1 { cases = $1; print; next }

{
  changed = what == "byte" ? sub(/0a$/, "0b") : change_read()
  if (changed) { differing++; printf "%s: case %d differs\n", sort, NR - 1 > wanted }
  print
}

END { printf "%s: %d of %d cases differ\n", sort, differing, cases > wanted }
