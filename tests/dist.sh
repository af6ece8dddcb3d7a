#!/usr/bin/env bash
# The files of a release. The tarball and the Debian package of `make dist` run without anything
# else but Python, and contain what they say. lintian finds no error in the package and has no
# warning. `make uninstall` removes what `make install` has installed. Each has the program and the
# command, compiled, with their manual pages, their completion and the plugin of MultiQC, and trims
# for a user without rights. A part that lacks a Debian package prints 'skipped' and the package's
# name. If nothing can be packed, the status is 77.
set -uo pipefail
. "$(dirname "$0")/common.bash"
dynamic=$tree/crates/fq_prog/out/fq_prog
need 'cc:gcc libc6-dev' dpkg-deb:dpkg objdump:binutils python3
make -s dist > /dev/null || exit 1
work=$(mktemp -d)
trap 'rm -rf "$work"' EXIT
chmod 755 "$work"
version=$("$dynamic" --version)
version=${version#fq_prog }
tarball=$tree/dist/tibzharuk-$version-linux-x86_64.tar.gz
package=$tree/dist/tibzharuk_${version}_amd64.deb
release=$work/empty/tibzharuk-$version-linux-x86_64
program=$release/bin/fq_prog

kit=$(rt version)
mapfile -t commands < <(python/tibzharuk/__main__.py --help | sed -n '/^COMMANDS/,/^$/s/^    \([a-zA-Z]\+\) .*/\1/p')
steps=(LEADING:3 TRAILING:3 SLIDINGWINDOW:4:15 MINLEN:36)
# Root trims as another user, who may write only where he is.
anybody=()
if [ "$(id -u)" -eq 0 ] && command -v setpriv > /dev/null; then anybody=(setpriv --reuid 65534 --regid 65534 --clear-groups); fi

# run_example NAME WORDS..: these words run the program, which prints the stored example
run_example() {
  local name=$1
  shift
  "$@" EXAMPLE 2> "$work/err" | diff - crates/fq_prog/stdout > "$work/difference" ||
    fail "$name prints another EXAMPLE: $(cat "$work/difference" "$work/err")"
}

# Each file that a document below this directory links to exists.
check_links() {
  local document link
  while IFS= read -r document; do
    while IFS= read -r link; do
      [ -e "$(dirname "$document")/$link" ] || fail "${document#"$work"/} leads to $link, which isn't there"
    done < <(grep -oE '\]\([^) ]+\)' "$document" | sed 's/^](//; s/)$//; s/#.*//' | grep -vE '^([a-z]+:|$)')
  done < <(find "$1" -name '*.md')
}

# installed_files PACKAGE: what is installed, below the directory of the installation, in which
# PACKAGE is where Python's packages are
installed_files() {
  local name
  (cd python && find tibzharuk -name __pycache__ -prune -o -type f -printf "$1/%p\n")
  { git ls-files -- workflow config profiles 2> /dev/null || find workflow config profiles -type f; } | sed "s|^|${1%python}|"
  printf '%s\n' bin/fq_prog bin/tibzharuk "$1/tibzharuk/kit" "$1/tibzharuk/fq_prog.sha256" "lib/python3/dist-packages/tibzharuk"
  printf "${1%python}examples/%s\n" reads_{1,2}.fq.gz trimmed/{{p,u}{1,2}.fq,trim.log,summary.txt}
  if [ -e docs/claims.tsv ]; then echo "$1/tibzharuk/selftest/claims.tsv"; fi
  printf "lib/python3/dist-packages/tibzharuk-$version.dist-info/%s\n" METADATA entry_points.txt
  printf 'share/man/man1/%s.1\n' fq_prog tibzharuk "${commands[@]/#/tibzharuk-}"
  for name in fq_prog tibzharuk; do
    printf 'share/%s\n' "bash-completion/completions/$name" "zsh/site-functions/_$name" "fish/vendor_completions.d/$name.fish"
  done
}

# said_by DIRECTORY WORDS..: what these words print, with the programs below the directory and those
# of the system
said_by() {
  local folder=$1
  shift
  PATH=$folder/bin:/usr/bin:/bin "$@" 2>&1
}

# check_commands DIRECTORY: each command runs there, its manual page is found, and MultiQC's plugin
check_commands() {
  local name words
  for name in '' "${commands[@]}"; do
    words=(tibzharuk ${name:+"$name"} --help)
    said_by "$1" "${words[@]}" > "$work/out" || fail "${words[*]} fails below $1: $(head -n 3 "$work/out")"
    if command -v man > /dev/null; then
      [ -s "$(man -M "$1/share/man" -w tibzharuk ${name:+"$name"} 2> /dev/null)" ] || fail "man finds no page of tibzharuk $name below $1"
    fi
  done
  # (also if it isn't on the path)
  PATH=/usr/bin:/bin "$1/bin/tibzharuk" --version 2>&1 | diff - <(printf 'tibzharuk %s\nfq_prog %s\n%s\n' "$version" "$version" "$kit") > "$work/difference" ||
    fail "tibzharuk --version below $1 prints other lines: $(cat "$work/difference")"
  PYTHONPATH=$1/lib/python3/dist-packages python3 -B -c '
from importlib.metadata import distribution
from importlib.util import find_spec
for each in distribution("tibzharuk").entry_points:
    assert find_spec(each.value.split(":")[0]), each
    print(each.group)' | sort | paste -sd ' ' | grep -qx 'console_scripts multiqc.hooks.v1 multiqc.modules.v1' || fail "MultiQC finds no plugin below $1"
  check_trimming "$1"
}

# check_trimming DIRECTORY: the command there trims the reads of examples/, and makes their page
check_trimming() {
  local side words
  rm -rf "$work/a lab"
  mkdir -m 777 "$work/a lab"
  install -m 644 examples/reads_[12].fq.gz "$work/a lab"
  words=(tibzharuk trim -1 reads_1.fq.gz -2 reads_2.fq.gz --out s "${steps[@]}")
  (cd "$work/a lab" && said_by "$1" "${anybody[@]}" "${words[@]}") > "$work/out" || fail "${words[*]} fails below $1: $(cat "$work/out")"
  cmp "$work/out" examples/trimmed/summary.txt || fail "the command below $1 prints another summary"
  for side in 1 2; do
    gzip -dc "$work/a lab/s.r$side.paired.fastq.gz" | cmp - "examples/trimmed/p$side.fq" || fail "the command below $1 writes other pairs"
  done
  grep -q '<title>' "$work/a lab/s.html" || fail "the command below $1 makes no page"
}

# check_compiled DIRECTORY: all of the package there is compiled
check_compiled() {
  local source
  while IFS= read -r source; do
    compgen -G "${source%/*}/__pycache__/$(basename "$source" .py).*.pyc" > /dev/null || fail "$source is not compiled"
  done < <(find "$1" -name '*.py')
}

# The tarball, in an empty directory, with an empty environment.
check_tarball() {
  local file
  (cd dist && sha256sum --quiet -c SHA256SUMS) || fail 'the sums of dist/ are not those of its files'
  mkdir "$work/empty"
  tar -C "$work/empty" -xzf "$tarball" || fail 'the tarball is not unpacked'
  [ "$(ls "$work/empty")" = "${release##*/}" ] || fail "the tarball has another directory: $(ls "$work/empty")"
  for file in README.md CHANGELOG.md CONTRIBUTING.md SECURITY.md CITATION.cff NOTICES.md LICENSE-MIT LICENSE-APACHE LICENSE-UNICODE \
    $(installed_files python); do
    [ -s "$release/$file" ] || fail "the tarball lacks $file"
  done
  check_compiled "$release/python"
  check_commands "$release"
  (cd "$release" && sha256sum --quiet -c SHA256SUMS) || fail 'the sums in the tarball are not those of its files'
  check_links "$release"
  run_example 'the program of the tarball' env -i "$program"
  if tar --numeric-owner -tvzf "$tarball" | grep -v ' 0/0 '; then fail 'the tarball names an owner'; fi
}

# The version is the same everywhere.
check_version() {
  [ "$("$program" --version)" = "fq_prog $version" ] || fail 'the tarball has another version'
  [ "$(sed -n 's/^## \([0-9.]*\) .*/\1/p' CHANGELOG.md | head -n 1)" = "$version" ] || fail "CHANGELOG.md begins with another version than $version"
  [ "$(dpkg-deb -f "$package" Version)" = "$version" ] || fail "the package has another version than $version"
  grep -qF "\"Tibzharuk $version\"" man/fq_prog.1 || fail "the manual page has another version than $version"
  grep -qx "Version: $version" "$release/lib/python3/dist-packages/tibzharuk-$version.dist-info/METADATA" || fail "the plugin of MultiQC has another version than $version"
  grep -qx "version: $version" CITATION.cff || fail "CITATION.cff has another version than $version"
  [ "$(dpkg-deb -f "$package" Maintainer)" = "${DEBFULLNAME:-Tibzharuk maintainers} <${DEBEMAIL:-root@localhost}>" ] || fail 'the package names another maintainer'
}

# The program needs no library and no loader, and runs in a root with no other file.
check_alone() {
  if objdump -p "$program" | grep -E 'NEEDED|INTERP'; then fail 'the program of the tarball needs a library'; fi
  ldd "$program" 2>&1 | grep -qE 'statically linked|not a dynamic executable' || fail 'ldd finds libraries'
  if [ "$(id -u)" -eq 0 ]; then
    mkdir "$work/bare"
    cp "$program" "$work/bare/fq_prog"
    run_example 'the program with no other file around it' chroot "$work/bare" /fq_prog
  else
    echo 'dist: the run with no other file around it: skipped: needs root'
  fi
}

# It writes the bytes that the dynamic program writes, with many threads too.
check_same_bytes() {
  local form runs
  awk 'BEGIN { srand(7); for (k = 1; k <= 4000; k++) { s = ""; q = ""; n = 30 + int(rand() * 90);
    for (i = 0; i < n; i++) { s = s substr("ACGT", 1 + int(rand() * 4), 1); q = q sprintf("%c", 33 + int(rand() * 41)) }
    printf "@p%d/%d\n%s\n+\n%s\n", int((k + 1) / 2), 2 - k % 2, s, q } }' > "$work/both.fq"
  for form in static dynamic; do
    runs=$program
    if [ "$form" = dynamic ]; then runs=$dynamic; fi
    mkdir "$work/$form"
    (cd "$work/$form" && "$runs" IL --threads 8 --block 16 --trimlog log ../both.fq fp fu rp ru LEADING:10 SLIDINGWINDOW:4:18 MINLEN:12 > summary) ||
      fail "the $form program fails"
  done
  grep -q '^Input Read Pairs: 2000$' "$work/static/summary" || fail 'the static program trims other pairs'
  diff -r "$work/static" "$work/dynamic" || fail 'the static program writes other bytes'
}

# The Debian package, in a root of its own, where nothing else is installed.
check_package() {
  local root=$work/root file
  mkdir -p "$root/var/lib/dpkg/info" "$root/var/lib/dpkg/updates"
  if [ "$(id -u)" -ne 0 ] || ! command -v dpkg > /dev/null; then
    echo 'dist: installing with dpkg: skipped: needs root and dpkg; the package is only unpacked'
    dpkg-deb -x "$package" "$root" || fail 'the package is not unpacked'
    check_links "$root"
    run_example 'the program of the package' env -i "$root/usr/bin/fq_prog"
    return
  fi
  touch "$root/var/lib/dpkg/status" "$root/var/lib/dpkg/available"
  dpkg --root="$root" --force-script-chrootless --force-depends --log=/dev/null --install "$package" > "$work/log" 2>&1 || fail "dpkg does not install the package: $(cat "$work/log")"
  run_example 'the program of the package' env -i "$root/usr/bin/fq_prog"
  check_links "$root"
  for file in $(installed_files share/tibzharuk/python | sed 's|\(share/man/.*\)|\1.gz|; s|zsh/site-functions|zsh/vendor-completions|') \
    share/doc/tibzharuk/{copyright,README.md,SECURITY.md,CITATION.cff,CHANGELOG.md,changelog.gz,NOTICES.md,LICENSE-MIT,LICENSE-UNICODE,licences/LGPL-2.1} \
    lib/tibzharuk/relink/fq_prog.o; do
    [ -s "$root/usr/$file" ] || fail "the package lacks $file"
  done
  [[ $(dpkg-deb -f "$package" Depends) == *python3* && $(dpkg-deb -f "$package" Recommends) == *tabix* && $(dpkg-deb -f "$package" Suggests) == *cutadapt* ]] ||
    fail 'the package does not name python3, tabix and cutadapt'
  check_compiled "$root/usr/share/tibzharuk/python"
  check_commands "$root/usr"
  bash tests/completion.sh "$root/usr/share" > "$work/log" 2>&1 || fail "the completion of the package: $(cat "$work/log")"
  (cd "$root" && md5sum --quiet -c var/lib/dpkg/info/tibzharuk.md5sums) || fail 'the sums of the package are not those of its files'
  # (what another version of Python keeps beside a module)
  touch "$root/usr/share/tibzharuk/python/tibzharuk/multiqc/__pycache__/counts.cpython-399.pyc"
  dpkg --root="$root" --force-script-chrootless --log=/dev/null --purge tibzharuk > "$work/log" 2>&1 || fail "dpkg does not remove the package: $(cat "$work/log")"
  if find "$root" -path "$root/var/lib/dpkg" -prune -o ! -type d -print | grep .; then fail 'the removed package leaves files'; fi
}

# lintian has no error and no warning, also if a maintainer is named.
check_lintian() {
  local each
  if ! command -v lintian > /dev/null; then
    echo 'dist: what lintian says: skipped: needs lintian'
    return
  fi
  mkdir "$work/named"
  cp -r dist/fq_prog dist/objects "$work/named"
  DEBFULLNAME='A Maintainer' DEBEMAIL=maintainer@debian.org bash packaging/pack.sh "$version" "$work/named" > /dev/null || fail 'nothing is packed for a maintainer'
  for each in "$package" "$work/named/${package##*/}"; do
    # (Its messages are left out: it can't read readelf's lines of functions whose names have blanks.)
    lintian --fail-on error,warning "$each" > "$work/log" 2> /dev/null || fail "lintian finds faults in $each: $(cat "$work/log")"
  done
  ! dpkg-deb --fsys-tarfile "$work/named/${package##*/}" | tar -xO ./usr/share/lintian/overrides/tibzharuk | grep -q root-in-contact ||
    fail 'the maintainer is excused in another package too'
}

# Packing again, in another directory and with other settings of the shell, makes the same bytes.
# With the tarball one can link the program again.
check_again() {
  mkdir "$work/again"
  cp -r dist/fq_prog dist/objects "$work/again"
  (umask 077 && TZ=Asia/Tokyo LC_ALL=C.UTF-8 bash packaging/pack.sh "$version" "$work/again") | diff - dist/SHA256SUMS || fail 'packing again makes other files'
  bash "$release/relink/link_static.sh" "$release/relink" "$work/relinked" || fail 'the program is not linked again'
  cmp "$work/relinked" "$program" || fail 'linking again makes another program'
}

# A processor without SSE4.2 is refused in one line, before anything is done. The oldest processor
# with SSE4.2 is enough.
check_processors() {
  local form status
  if ! command -v qemu-x86_64 > /dev/null; then
    echo 'dist: a processor without SSE4.2: skipped: needs qemu-user'
    return
  fi
  for form in "$program" "$dynamic"; do
    qemu-x86_64 -cpu core2duo "$form" EXAMPLE > "$work/out" 2> "$work/err"
    status=$?
    if [ "$status" -ne 127 ] || [ -s "$work/out" ] || ! grep -q '^this machine lacks a feature of x86-64-v2' "$work/err"; then
      fail "$form without SSE4.2: status $status, $(cat "$work/err")"
    fi
  done
  run_example 'the program on the least processor' qemu-x86_64 -cpu Nehalem "$program"
}

# What is installed runs, and all of its files are removed again; other files stay.
check_install() {
  local stage="$work/a stage"
  install -D -m 644 README.md "$stage/usr/bin/other"
  make -s install DESTDIR="$stage" PREFIX=/usr > /dev/null || fail 'make install fails'
  run_example 'the installed program' "$stage/usr/bin/fq_prog"
  { echo bin/other && installed_files share/tibzharuk/python; } | sort |
    diff - <(find "$stage/usr" -name __pycache__ -prune -o ! -type d -printf '%P\n' | sort) || fail 'make install makes other files'
  check_compiled "$stage/usr/share/tibzharuk/python"
  check_commands "$stage/usr"
  make -s uninstall DESTDIR="$stage" PREFIX=/usr > /dev/null || fail 'make uninstall fails'
  [ "$(find "$stage" ! -type d)" = "$stage/usr/bin/other" ] || fail "make uninstall leaves $(find "$stage" ! -type d)"
  [ ! -e "$stage/usr/share/tibzharuk" ] || fail 'make uninstall leaves share/tibzharuk'
}

check_tarball
check_version
check_alone
check_same_bytes
check_package
check_lintian
check_again
check_processors
check_install
finish 'as it says'
