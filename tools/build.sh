#!/usr/bin/env bash
# Builds the archive, target/staticlib/libwuldgisp.a, and the programs, in target/bin.
#
#     tools/build.sh        proves first what they are made of, as far as no check on this machine has
#     tools/build.sh --ci   right after `rt ci`: takes the programs that it built, and makes the archive over the libraries that it proved
#
# The archive needs no library but C's.
set -euo pipefail
cd "$(dirname "$0")/.."

programs=(check_image order redirect_image link_image replay)
mkdir -p target/staticlib target/bin
log=$(mktemp)
trap 'rm -f "$log"' EXIT

# runs a command, and shows what it says only where it does not make the file
makes() {
  local file=$1
  shift
  rm -f "$file"
  "$@" > "$log" 2>&1 < /dev/null || true
  if [ ! -s "$file" ]; then
    cat "$log" >&2
    echo "$0: there is no $file" >&2
    exit 1
  fi
}

in_crate() { (cd "crates/$1" && shift && "$@"); }

archive=crates/wuldgisp_c/out/libwuldgisp_c.a
# libraries with a stamp are those of `rt check`, which `rt ci` puts back
if [ "${1:-}" = --ci ] && ! compgen -G 'crates/*/out/rlib/stamp' > /dev/null; then
  kit=$(dirname "$(dirname "$(readlink -f "$(command -v rt)")")")
  words=(--crate-name wuldgisp_c --crate-type staticlib --toolchain "$kit/toolchain" --backend llvm
    --antt-project "$kit/rattle/logic/antt-project.json" --logic-built "$kit/logic_built"
    --extern "std=$kit/rlibs/std.rlib" -L "dependency=$kit/rlibs")
  for library in $(sed -n 's/^wuldgisp_c staticlib://p' crates.txt); do
    words+=(--extern "$library=$PWD/crates/$library/out/rlib/$library.rlib")
  done
  for folder in "$PWD"/crates/*/out/rlib; do
    words+=(-L "dependency=$folder")
  done
  makes "$archive" in_crate wuldgisp_c "$kit/bin/rattle" build "${words[@]}" -o out/libwuldgisp_c.a src/lib.rt
else
  makes "$archive" in_crate wuldgisp_c rt lib
fi
cp "$archive" target/staticlib/libwuldgisp.a

for program in "${programs[@]}"; do
  made=crates/$program/out/$program
  if [ "${1:-}" != --ci ]; then
    makes "$made" in_crate "$program" rt run
  fi
  cp "$made" target/bin/
done
echo "target/staticlib/libwuldgisp.a and target/bin: ${programs[*]}"
