# shellcheck shell=bash disable=SC2034,SC2154  # tests read what is set here, and set what is read
# For tests about mappers, read after common.bash of this directory: a simulated genome, genome.fa,
# and pairs of it, g1 and g2, in `data`; what the program makes of them as plain files, g1.fq, g2.fq
# and the summary in `plain`; and how many `pairs` survive.

# draw_genome PAIRS
draw_genome() {
  awk 'BEGIN { srand(7); for (i = 0; i < 300; i++) { s = ""; for (k = 0; k < 70; k++) s = s substr("ACGT", 1 + int(rand() * 4), 1); print s } }' > genome.txt
  { echo '>one' && cat genome.txt; } > genome.fa
  tr -d '\n' < genome.txt | awk -v pairs="$1" 'BEGIN { srand(8) } {
    for (k = 1; k <= pairs; k++) {
      p = 1 + int(rand() * (length($0) - 300)); f = substr($0, p, 100); m = substr($0, p + 200, 100); r = ""; q = ""
      for (i = 100; i > 0; i--) r = r substr("TGCA", index("ACGT", substr(m, i, 1)), 1)
      n = 50 + int(rand() * 50); for (i = 1; i <= 100; i++) q = q (i <= n ? "I" : "#")
      printf "@g%d 1:N:0:A\n%s\n+\n%s\n", k, f, q > "g1"; printf "@g%d 2:N:0:A\n%s\n+\n%s\n", k, r, q > "g2"
    } }'
  "$program" PE g1 g2 "$plain/g1.fq" /dev/null "$plain/g2.fq" /dev/null "${steps[@]}" > "$plain/summary"
  pairs=$(($(wc -l < "$plain/g1.fq") / 4))
}
