#!/usr/bin/env bash
# The documents say what the program and the code say.
# - Help, README.md, docs/FORMAT.md and the manual page name the same steps, and help and the manual
#   page the same options and statuses.
#   No line of help is over 80 columns.
# - The first command of README.md runs, the first run of docs/GUIDE.md prints and writes what it
#   shows, and the program of docs/LIBRARY.md runs.
# - docs/ARCHITECTURE.md lists the crates and what they depend on as crates.txt does, and each name
#   in docs/PROVED.md is in the code. What the proof of the program rests on is what its check said.
# - What is made of the help and of the schema of a report is as packaging/made.py makes it.
# - The version and its day are those of CHANGELOG.md everywhere (packaging/version.sh).
# - README.md has at most 160 lines, and all documents 4,500. Each time and size in README.md is one of
#   bench/README.md, and the pictures are of this version. The counts of wrong bodies, rows and
#   definitions are those of the tree, and documents name one kit.
# - Each file, and each heading, that a document links to exists.
# - Every line of a document, outside tables and code, is at most 100 columns wide (DOCUMENTS_WIDTH
#   sets another width, 0 none), and so are comments, clauses, definitions and proofs in crates/. No
#   sentence of a document has more than 40 words.
# - Each public lemma has a line above it that says what it says.
set -uo pipefail
. "$(dirname "$0")/common.bash"
width=${DOCUMENTS_WIDTH:-100}
find_program
work=$(mktemp -d)
trap 'rm -rf "$work"' EXIT

# alike WHAT FILE FILE: both have the same lines, in any order
alike() {
  diff <(sort -u "$2") <(sort -u "$3") || fail "$1"
}

# The code of a document, or with `text` everything except its code and tables. Code is fenced, or
# indented by four columns after an empty line. Each block ends with a form feed.
parts() {
  awk -v wanted="$1" '
    /^ *(```|~~~)/ { if (fenced && wanted == "code") print "\f"; fenced = !fenced; next }
    fenced { if (wanted == "code") print; next }
    /^    / && (indented || empty) { indented = 1; if (wanted == "code") print substr($0, 5); next }
    /^$/ && indented { held = held "\n"; next }
    { if (indented && wanted == "code") print "\f"; indented = 0; held = ""; empty = ($0 == "")
      if (wanted == "text" && !/^ *\|/) print FNR ": " $0 }
    END { if (indented && wanted == "code") print "\f" }' "$2"
}

# The first cells of the rows of those tables whose head begins with this cell.
cells() {
  awk -v head="$1" -F' *[|] *' '!/^\|/ { inside = 0; next } $2 == head { inside = 1; next } inside && $2 !~ /^-+$/ { print $2 }' "$2"
}

# The words of a text that are steps with the letters of their numbers, such as LEADING:t, and
# TOPHRED33.
steps() { grep -oE '\b[A-Z]+(:[a-z]\b)+|\bTOPHRED33\b' | sort -u; }
options() { grep -oE -- '(^|[^-[:alnum:]])--[a-z][a-z-]*' | grep -oE -- '--.*' | sort -u; }

compare_names() {
  local document
  {
    "$program" --help
    "$program" PE --help
    "$program" IL --help
  } > "$work/help"
  ! grep -E '.{81}' "$work/help" || fail 'lines of help are over 80 columns'
  steps < "$work/help" > "$work/steps"
  grep -v '^ *fq_prog [A-Z]* --help' "$work/help" | options > "$work/options"
  [ "$(wc -l < "$work/steps")" -ge 8 ] || fail 'help lists no steps'
  # The manual page, as plain words: it writes its steps as LEADING: t.
  sed 's/\\-/-/g; s/^\.[A-Z]* //; s/ *: *\([a-z]\)\b/:\1/g' man/fq_prog.1 > "$work/page"
  for document in README.md docs/FORMAT.md "$work/page"; do
    steps < "$document" > "$work/named"
    alike "help and ${document##*/} name other steps" "$work/steps" "$work/named"
  done
  options < "$work/page" > "$work/named"
  alike 'help and the manual page name other options' "$work/options" "$work/named"
}

compare_statuses() {
  local document
  tr '\n' ' ' < "$work/help" | grep -oE 'Exit status: [^.]*\.' | grep -oE '(: |; )[0-9]+ ' | tr -dc '0-9\n' | sort -u > "$work/statuses"
  [ "$(wc -l < "$work/statuses")" -eq 7 ] || fail 'help lists no statuses'
  for document in README.md docs/FORMAT.md; do
    cells Status "$document" | sort -u > "$work/named"
    # README.md may leave them to docs/FORMAT.md.
    if [ -s "$work/named" ] || [ "$document" != README.md ]; then
      alike "help and $document list other statuses" "$work/statuses" "$work/named"
    fi
  done
  sed -n '/^\.SH EXIT STATUS/,/^\.SH EXAMPLES/p' man/fq_prog.1 | sed -n 's/^\.B \([0-9]*\)$/\1/p' > "$work/named"
  alike 'help and the manual page list other statuses' "$work/statuses" "$work/named"
}

# shown FILE WHAT: a block of code of docs/GUIDE.md holds the lines of FILE, one after the other
shown() {
  awk -v RS='\f\n' -v want="$(cat "$1")" 'index("\n" $0, "\n" want "\n") { found = 1 } END { exit !found }' "$work/code" || fail "docs/GUIDE.md doesn't show $2: $(cat "$1")"
}

# The parts of the manual page, the completions, the description for CWL and docs/FORMAT.md that
# packaging/made.py makes.
compare_made() {
  if ! command -v python3 > /dev/null; then
    echo 'documents: the parts that are made: skipped: needs python3'
  elif ! python3 packaging/made.py --check "$program"; then
    fail "parts differ; make them by: packaging/made.py $program"
  fi
}

# Runs the first command of README.md over the reads in examples/, as if they were those of two lanes.
first_command() {
  local room=$work/first lane side name
  if ! command -v cutadapt > /dev/null; then
    echo 'documents: the first command of README.md: skipped: needs cutadapt'
    return
  fi
  mkdir -p "$room/bin"
  ln -s "$tibzharuk" "$room/bin/tibzharuk"
  for lane in 1 2; do
    for side in 1 2; do cp "examples/reads_$side.fq.gz" "$room/s_L00${lane}_R$side.fq.gz"; done
  done
  parts code README.md | awk -v RS='\f\n' '/^tibzharuk trim -1/ && !found { found = 1; print }' > "$room/command"
  (cd "$room" && PATH=$room/bin:${program%/*}:$PATH bash -euo pipefail command) > "$room/said" 2>&1 || fail "the first command of README.md fails: $(cat "$room/said")"
  grep -qx 'Input Read Pairs: 2000' "$room/said" || fail "the first command of README.md prints: $(cat "$room/said")"
  for name in r1.paired.fastq.gz r1.unpaired.fastq.gz r2.paired.fastq.gz r2.unpaired.fastq.gz json html; do
    [ -s "$room/s.$name" ] || fail "the first command of README.md makes no s.$name"
  done
}

# Runs the block of docs/GUIDE.md that makes r1.fq and r2.fq and trims them.
first_run() {
  parts code docs/GUIDE.md > "$work/code"
  awk -v RS='\f\n' '/printf/ && /> *r1\.fq/ && /tibzharuk trim/ && !found { found = 1; print }' "$work/code" |
    grep -E '^(\$ )?(printf|tibzharuk|cat|  )' | sed 's/^\$ //' > "$work/commands"
  [ -s "$work/commands" ] || {
    fail 'docs/GUIDE.md has no first run'
    return
  }
  mkdir "$work/run" "$work/bin"
  ln -s "$program" "$work/bin/fq_prog"
  ln -s "$tibzharuk" "$work/bin/tibzharuk"
  (cd "$work/run" && PATH=$work/bin:$PATH bash -euo pipefail "$work/commands") > "$work/printed" || fail 'the first run of docs/GUIDE.md fails'
  shown "$work/printed" 'what its first run prints'
  [ -s "$work/run/trim.log" ] && shown "$work/run/trim.log" 'the log of its first run'
}

# Runs the program of docs/LIBRARY.md over the crates as they are built.
call_library() {
  local room=$work/library crate
  mkdir -p "$room/crates/shown/src"
  parts code docs/LIBRARY.md | awk -v RS='\f\n' '/fn main/ && /run_threads\(/ && !found { found = 1; print }' > "$room/crates/shown/src/main.rt"
  [ -s "$room/crates/shown/src/main.rt" ] || {
    fail 'docs/LIBRARY.md has no program that calls the library'
    return
  }
  # The libraries below the program, which the build of the program has made.
  while IFS= read -r crate; do
    [ -d "crates/$crate/out/rlib" ] || continue
    grep -E "^${crate}[ :]" crates.txt >> "$room/crates.txt"
    mkdir -p "$room/crates/$crate/out"
    find "crates/$crate" -maxdepth 1 '(' -name src -o -name specs -o -name proofs ')' -exec cp -r -t "$room/crates/$crate" {} +
    cp -r "crates/$crate/out/rlib" "$room/crates/$crate/out/"
  done < <(grep -oE '^[a-z_0-9]+' crates.txt | grep -v '^fq_prog')
  echo 'shown: fq_run anyhow' >> "$room/crates.txt"
  cp HANDLES "$room/"
  if ! (cd "$room/crates/shown" && rt try) > "$work/log" 2>&1 || ! grep -qx 'Finished, 1 pair' "$work/log"; then
    tail -n 20 "$work/log"
    fail 'the program of docs/LIBRARY.md does not run'
  fi
}

# docs/ARCHITECTURE.md lists each crate with what it depends on, as crates.txt does.
compare_crates() {
  awk -F: '!/^#/ && NF > 1 { split($1, name, " "); n = split($2, on, " "); for (i = 1; i <= n; i++) print name[1], on[i] }' crates.txt > "$work/on"
  awk -F' *[|] *' '
    !/^\|/ { column = 0; next }
    !column { column = -1; for (i = 2; i < NF; i++) if ($i == "Depends on") column = i; next }
    column > 0 && $2 ~ /^`/ { gsub(/`/, "", $2); n = split($column, on, /, */); for (i = 1; i <= n; i++) { gsub(/`/, "", on[i]); print $2, on[i] } }' \
    docs/ARCHITECTURE.md > "$work/named"
  alike 'docs/ARCHITECTURE.md and crates.txt differ (crates.txt is <)' "$work/on" "$work/named"
}

# Each name in the second column of docs/PROVED.md is in the code: a word outside comments, a file,
# or a file without its ending. A name after :: must be defined as a function.
compare_proved() {
  local name word
  # shellcheck disable=SC2016  # the backticks are those of the document
  awk -F' [|] ' '/^\|/ { print $2 }' docs/PROVED.md | grep -oE '`[^`]+`' | tr -d '`' | sort -u > "$work/names"
  {
    find crates -path '*/out' -prune -o -name '*.rt' -exec sed 's|//.*||' {} + -o -name '*.antt' -exec sed 's|^ *--.*||' {} +
    cat crates.txt
  } > "$work/code"
  {
    grep -oE '[A-Za-z_][A-Za-z0-9_]*(-[a-z][a-z0-9_]*)*' "$work/code"
    find crates tests -path '*/out' -prune -o -type f -printf '%f\n' | sed 's/[.].*//'
  } | sort -u > "$work/words"
  grep -oE 'fn [a-z_0-9]+' "$work/code" | cut -c 4- | sort -u > "$work/functions"
  while IFS= read -r name; do
    case $name in
      */*)
        [ -e "$name" ] || [ -e "docs/$name" ] || compgen -G "crates/*/$name" > /dev/null || fail "docs/PROVED.md names $name, which isn't there"
        continue
        ;;
      *.md | *.txt | *.rt | *.rows)
        find . -name "$name" -not -path '*/out/*' | grep -q . || fail "docs/PROVED.md names $name, which isn't there"
        continue
        ;;
    esac
    while IFS= read -r word; do
      grep -qxF -- "$word" "$work/words" || fail "docs/PROVED.md names $name, and no code has $word"
    done < <(grep -oE '[A-Za-z_][A-Za-z0-9_]*(-[a-z][a-z0-9_]*)*' <<< "$name")
    word=${name##*::}
    [ "$word" = "$name" ] || grep -qxF -- "$word" "$work/functions" || fail "docs/PROVED.md names $name, and no such function is defined"
  done < "$work/names"
}

# docs/PROVED.md has the count of axioms, and what the prover computes by its own routines, that the
# check of the program printed when `make build` proved it.
compare_trusted() {
  local said=crates/fq_prog/out/proof
  if [ ! -s "$said" ]; then
    echo 'documents: what is trusted: skipped: make build has not proved the program here'
    return
  fi
  grep -oE '\b(axioms|native)=[^ ]+' "$said" | sort > "$work/trusted"
  sed -n '/^\*\*Trusted\*\*/,/^$/p' docs/PROVED.md | grep -oE '\b(axioms|native)=[a-z0-9,]*[a-z0-9]' | sort > "$work/named"
  [ "$(wc -l < "$work/trusted")" -eq 2 ] || fail "the check of the program says: $(cat "$said")"
  alike 'docs/PROVED.md trusts something else than the check of the program' "$work/trusted" "$work/named"
}

documents() {
  git ls-files --cached --others --exclude-standard -- '*.md' 2> /dev/null || find . -name '*.md' -not -path '*/out/*' -printf '%P\n'
}

# Numbers that are in several places are the same there.
compare_numbers() {
  local number count rows
  count=$(wc -l < README.md)
  [ "$count" -le 160 ] || fail "README.md has $count lines, over 160"
  count=$(documents | xargs cat | wc -l)
  [ "$count" -le 4500 ] || fail "all documents have $count lines, over 4500"
  while IFS= read -r number; do
    grep -qwF -- "$number" bench/README.md || fail "README.md says $number, and bench/README.md doesn't"
  done < <(sed -n '/^## What others do/,/^## What is proved/p' README.md | grep -oE '[0-9]+([.][0-9]+)+' | sort -u)
  count=$(find crates -path '*/out' -prune -o -path '*/must-fail/*.edit' -print | wc -l)
  while IFS= read -r number; do
    [ "$number" -eq "$count" ] || fail "docs/GATE.md lists $number wrong bodies in must-fail/, and there are $count"
  done < <(grep '^|' docs/GATE.md | grep -oE '[0-9]+ wrong bodies' | grep -oE '[0-9]+')
  while IFS= read -r number; do
    grep -qE "^\| \`make build\` \|.*\| ${number% minutes} \|" docs/GATE.md || fail "docs/GATE.md doesn't say that \`make build\` takes $number"
  done < <(grep -ohE '[0-9]+ to [0-9]+ minutes' README.md CONTRIBUTING.md packaging/build.sh packaging/run_examples.sh | sort -u)
  rows=$(grep -oE '^[0-9]+' crates/fq_test_rows/stdout)
  number=$(tr '\n' ' ' < docs/ARCHITECTURE.md | grep -oE 'some [0-9]+ of them' | grep -oE '[0-9]+')
  [ $(((rows + 5) / 10)) -eq $(((number + 5) / 10)) ] || fail "docs/ARCHITECTURE.md says some $number rows, and fq_test_rows has $rows"
  count=$(documents | xargs grep -ohE 'rattle-kit-[0-9a-z]+' | sort -u | wc -l)
  [ "$count" -le 1 ] || fail "documents name $count kits"
}

# The pictures are of the version of CHANGELOG.md.
compare_pictures() {
  local picture version said
  version=$(sed -nE 's/^## ([0-9.]+).*/\1/p' CHANGELOG.md | head -n 1)
  if ! command -v python3 > /dev/null; then
    echo 'documents: the pictures: skipped: needs python3'
    return
  fi
  for picture in docs/*.png; do
    said=$(python3 packaging/picture_text.py "$picture")
    [ "$said" = "fq_prog $version" ] || fail "$picture is of '$said', not of fq_prog $version (packaging/pictures.sh draws it)"
  done
}

# docs/PROMISE.md says how many definitions its contracts rest on, to the nearest ten.
count_definitions() {
  local run=crates/fq_run/src/two_texts.rt:run_threads contracts said
  if ! command -v python3 > /dev/null; then
    echo 'documents: the number of definitions: skipped: needs python3'
    return
  fi
  for contracts in "$run.whole" "$run crates/fq_app/src/answering.rt:program"; do
    # shellcheck disable=SC2086  # each contract is a word
    said=$(python3 tests/documents/definitions.py $contracts | awk '{ printf "some %d in %d files", int($1 / 10 + 0.5) * 10, $2 }')
    tr '\n' ' ' < docs/PROMISE.md | grep -qF -- "$said" || fail "docs/PROMISE.md doesn't say that $contracts rests on $said"
  done
}

# The targets of the links of a document, without those to the Internet.
links() { grep -oE '\]\([^) ]+\)' "$1" | sed 's/^](//; s/)$//' | grep -vE '^[a-z]+:'; }

# The names by which a link may refer to a heading of the document after #: the heading in small
# letters, with dashes for spaces, without other marks.
headings() {
  parts text "$1" | sed -nE 's/^[0-9]+: #{1,6} +//p' | sed -E 's/\[([^]]*)\]\([^)]*\)/\1/g' |
    tr '[:upper:]' '[:lower:]' | sed 's/[^[:alnum:] _-]//g; s/ /-/g'
}

# The names in a document's backticks that begin with a directory of the tree.
# shellcheck disable=SC2016  # the backticks are those of the document
named_files() {
  grep -oE '`(bench|config|docs|man|completions|packaging|profiles|python|tests|workflow)/[A-Za-z0-9_./-]+`' "$1" | tr -d '`'
}

# Links and names lead to a file or a heading. A name may also be that of a file beside the
# document.
follow_links() {
  local document link target place
  while IFS= read -r document; do
    while IFS= read -r link; do
      target=$(dirname "$document")/${link%%#*}
      [ -n "${link%%#*}" ] || target=$document
      place=${link#"${link%%#*}"}
      if [ ! -e "$target" ]; then
        fail "$document leads to $link, which isn't there"
      elif [ -n "$place" ]; then
        grep -qxF -- "${place#\#}" <(headings "$target") || fail "$document leads to $link, and no heading is there"
      fi
    done < <(links "$document")
    while IFS= read -r link; do
      [ -e "$link" ] || [ -e "$(dirname "$document")/$link" ] || fail "$document names $link, which isn't there"
    done < <(named_files "$document")
  done < <(documents)
}

# The numbers of lines with more characters than that.
measure_width() {
  local document
  while IFS= read -r document; do
    parts text "$document" | LC_ALL=C.UTF-8 grep -E "^[0-9]+: .{$((width + 1))}" | sed "s|^\([0-9]*\): |$document:\1: |" | cut -c 1-70
  done < <(documents) > "$work/wide"
  if [ -s "$work/wide" ]; then
    cat "$work/wide"
    fail "$(wc -l < "$work/wide") lines are over $width columns"
  fi
}

# Lines of code, proofs and comments over that width. Imports, texts in quotes, names of lemmas in
# attributes and names of goals may be wider.
measure_code() {
  LC_ALL=C.UTF-8 find crates -path '*/out' -prune -o '(' -name '*.rt' -o -name '*.antt' ')' \
    -exec grep -nE "^.{$((width + 1))}" {} + |
    grep -vE '^[^:]*:[0-9]+: *((pub )?(ghost )?use |#\[tactic|pub [^ ]* : goal\.)|^[^"]*"' | cut -c 1-100 > "$work/wide_code"
  if [ -s "$work/wide_code" ]; then
    head -n 20 "$work/wide_code"
    fail "$(wc -l < "$work/wide_code") lines of code or comments are over $width columns"
  fi
}

# Public lemmas and definitions of proofs without a line above them. The fields of a record may do
# without, and so may answers to goals.
find_bare_lemmas() {
  find crates -path '*/out' -prune -o -path '*/proofs/*' -name '*.antt' -exec awk '
    FNR == 1 { above = ""; fields = head = -1 }
    { match($0, /^ */); depth = RLENGTH }
    /[^ ]/ && depth <= fields { fields = -1 }
    /^ *(pub )?record / { head = depth }
    / where$/ && head >= 0 { fields = head; head = -1 }
    /^ *(abbrev )?(rec )?pub [^ ]+ :( |$)/ && !/ : goal\./ && fields < 0 && above !~ /^ *--/ {
      print FILENAME ":" FNR ": " $0 }
    !/^ *#\[/ { above = $0 }' {} + | cut -c 1-100 > "$work/bare"
  if [ -s "$work/bare" ]; then
    head -n 20 "$work/bare"
    fail "$(wc -l < "$work/bare") public lemmas have no line above them"
  fi
}

# Sentences of more than 40 words, by the line on which they begin. A sentence ends at . ? or !
# before a space, and with its paragraph or its list item. Headings and quotes (after >) are left
# out.
measure_sentences() {
  local document
  while IFS= read -r document; do
    parts text "$document" | awk -v document="$document" '
      function end() { if (count > 40) print document ":" begun " " count " words"; count = 0 }
      NF == 1 || $2 ~ /^(#+|>|[-*]|[0-9]+\.)$/ { end() }
      $2 ~ /^(#+|>)$/ { next }
      { for (i = 2; i <= NF; i++) {
          if (!count) begun = $1
          if ($i ~ /[[:alnum:]]/) count++
          if ($i ~ /[^.][.?!][]")*_`\047]*$/) end() } }
      END { end() }'
  done < <(documents) > "$work/long"
  if [ -s "$work/long" ]; then
    cat "$work/long"
    fail "$(wc -l < "$work/long") sentences have more than 40 words"
  fi
}

bash packaging/version.sh --check || fail 'places name another version than CHANGELOG.md (packaging/version.sh sets it)'
compare_names
compare_statuses
compare_made
first_command
first_run
compare_crates
compare_proved
compare_trusted
call_library
compare_numbers
compare_pictures
count_definitions
follow_links
if [ "$width" -gt 0 ]; then
  measure_width
  measure_code
  find_bare_lemmas
fi
measure_sentences
finish 'as the program says'
