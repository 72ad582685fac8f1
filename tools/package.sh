#!/usr/bin/env bash
# Makes sapuendy-VERSION.tar.gz and a Debian package of the built programs, scripts, examples and pages, so that whoever has no kit installs and runs
# them. Usage: tools/package.sh [FOLDER]; the files are written into FOLDER, or into the current one.
#
# The programs are crates/NAME/out/NAME, which the gate builds, or what DQSOLVE and DQCHECK name. Programs are in bin/, scripts beside them as
# sapuendy-NAME, their modules in lib/sapuendy, pages and examples in share/sapuendy, where BUILD names the commit and the programs' sums.
# Installed by hand, `tar xzf` puts all below a folder of its own, from which it runs; dpkg puts it into /usr.
set -euo pipefail
top=$(cd "$(dirname "${BASH_SOURCE[0]}")/.." && pwd)
out=$(cd "${1:-.}" && pwd)
scripts="batch control decide explain fill fill_boxes prove_circuit refute session verilog"

for program in dqsolve dqcheck; do
  variable=${program^^}
  declare "$program=${!variable:-$top/crates/$program/out/$program}"
  if ! [ -x "${!program}" ]; then
    echo "${!program} isn't built: run \`rt ci\` at the top, or name it by $variable" >&2
    exit 1
  fi
done
if commit=$(git -C "$top" rev-parse --short=12 HEAD 2> /dev/null); then
  day=$(git -C "$top" show -s --format=%cd --date=format:%Y%m%d HEAD)
  git -C "$top" diff --quiet HEAD || commit+="-changed"
else
  commit=none day=$(date +%Y%m%d)
fi
version=0~git$day.$commit

work=$(mktemp -d)
trap 'rm -rf "$work"' EXIT
name=sapuendy-$version
tree=$work/$name
lib=$tree/lib/sapuendy pages=$tree/share/sapuendy man=$tree/share/man/man1

put_programs() {
  mkdir -p "$tree/bin" "$lib"
  install -m 755 "$dqsolve" "$tree/bin/dqsolve"
  install -m 755 "$dqcheck" "$tree/bin/dqcheck"
  ln -s ../../bin/dqsolve ../../bin/dqcheck "$lib"
}

put_scripts() {
  mkdir -p "$lib/tools"
  install -m 644 "$top"/tools/*.py "$lib/tools"
  rm -f "$lib"/tools/{believed,crates,gate_times,manual,proof_times,same_lemmas}.py
  for script in $scripts; do
    printf '#!/bin/sh\nhere=$(dirname "$(readlink -f "$0")")\nexec python3 "$here/../lib/sapuendy/tools/%s.py" "$@"\n' "$script" > "$tree/bin/sapuendy-$script"
    chmod 755 "$tree/bin/sapuendy-$script"
  done
}

put_pages() {
  mkdir -p "$pages" "$man" "$tree/share/doc" "$tree/share/bash-completion/completions"
  cp -rL "$top/README.md" "$top/docs" "$top/examples" "$pages"
  ln -s ../../share/sapuendy/docs "$lib/docs"
  ln -s ../sapuendy "$tree/share/doc/sapuendy"
  { echo "commit $commit"; (cd "$tree/bin" && sha256sum dqsolve dqcheck); } > "$pages/BUILD"
  for page in dqsolve dqcheck; do python3 "$top/tools/manual.py" "$page" "$version" | gzip -9n > "$man/$page.1.gz"; done
  for page in $scripts; do python3 "$top/tools/manual.py" "$page" "$version" | gzip -9n > "$man/sapuendy-$page.1.gz"; done
  python3 "$top/tools/manual.py" --completion > "$tree/share/bash-completion/completions/dqsolve"
}

put_control() {
  mkdir -p "$work/deb/DEBIAN" "$work/deb/usr"
  cp -r "$tree"/. "$work/deb/usr"
  cat > "$work/deb/DEBIAN/control" <<EOF
Package: sapuendy
Version: $version
Architecture: amd64
Maintainer: the developers of Sapuendy <sapuendy@localhost>
Depends: libc6
Recommends: python3, yosys
Suggests: berkeley-abc, cadical
Section: science
Priority: optional
Description: solver and checker for DQBF, with proved verdicts
 dqsolve decides dependency quantified Boolean formulas with certificates,
 dqcheck judges a formula and a certificate from any hand. Scripts fill
 black boxes in Verilog and find controllers that see a part of their plant.
EOF
}

put_programs
put_scripts
put_pages
tar -C "$work" --owner=0 --group=0 -czf "$out/$name.tar.gz" "$name"
put_control
dpkg-deb --root-owner-group --build "$work/deb" "$out/sapuendy_${version}_amd64.deb" > /dev/null
echo "$out/$name.tar.gz"
echo "$out/sapuendy_${version}_amd64.deb"
