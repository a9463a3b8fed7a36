# The generated table of a number: a header y,x1,x2,.. and whole numbers below 1,000, filled record by record from the
# congruential generator z -> (1664525 z + 1013904223) mod 2^32, of which each cell takes the upper half.
#
# usage: awk -v number=N -v rows=R -v columns=C -f make_table.awk
BEGIN {
  z = number
  printf "y"
  for (j = 1; j <= columns; j++) printf ",x%d", j
  printf "\n"
  for (i = 1; i <= rows; i++) {
    for (j = 0; j <= columns; j++) {
      z = (1664525 * z + 1013904223) % 4294967296
      printf "%s%d", (j ? "," : ""), int(z / 65536) % 1000
    }
    printf "\n"
  }
}
