#!/usr/bin/env bash
# Replays the vectors through the programs and compares all that they write, byte for byte; then gives them input that cannot be read and output that
# cannot be written. Wants the programs in target/bin.
set -euo pipefail
cd "$(dirname "$0")/.."

work=$(mktemp -d)
trap 'rm -rf "$work"' EXIT

orders=0
for expected in vectors/*.order; do
  target/bin/order < "${expected%.order}.img" > "$work/order" 2> "$work/err"
  cmp "$work/order" "$expected"
  if grep -q "^refused " "$expected"; then
    grep -q "^order: $(cat "$expected"): ." "$work/err"
    [ "$(wc -l < "$work/err")" = 1 ]
  else
    cmp "$work/err" /dev/null
  fi
  orders=$((orders + 1))
done
echo "$orders orders agree, and every refusal is said on standard error too"

checks=0
while IFS='|' read -r name answer _; do
  target/bin/check_image < "vectors/$name.img" > "$work/out" 2> "$work/err"
  if [ "$answer" = ok ]; then
    echo accepted | cmp - "$work/out"
    cmp "$work/err" /dev/null
  else
    echo "$answer" | cmp - "$work/out"
    grep -q "^check_image: $answer: ." "$work/err"
    [ "$(wc -l < "$work/err")" = 1 ]
  fi
  checks=$((checks + 1))
done < <(tr '\t' '|' < vectors/expected.tsv)
echo "$checks checks agree, and every refusal is said on standard error too"

# redirect_image with these arguments on an image; what it writes goes to $work/out and $work/err
redirect() {
  local image=$1
  shift
  target/bin/redirect_image "$@" < "$image" > "$work/out" 2> "$work/err"
}

# it wrote nothing but one line that begins with these words
told() {
  if [ -s "$work/out" ] || [ "$(wc -l < "$work/err")" != 1 ] || [[ "$(cat "$work/err")" != "$1"* ]]; then
    echo "expected nothing but the line '$1..', and got:" >&2
    cat "$work/err" >&2
    exit 1
  fi
}

redirects=0
while IFS='|' read -r name both omit answer; do
  # shellcheck disable=SC2086  # the numbers are words apart
  redirect "vectors/$name.img" $both $omit
  if [ "$answer" = ok ]; then
    cmp "$work/out" "vectors/$name.redirected"
    cmp "$work/err" /dev/null
  else
    told "redirect_image: $answer: "
  fi
  redirects=$((redirects + 1))
done < <(tr '\t' '|' < vectors/redirect.tsv)
echo "$redirects redirects agree"

image=vectors/r000.img
redirect "$image" && told "usage: redirect_image "
redirect "$image" 0 && told "usage: redirect_image "
redirect "$image" x 1 && told "redirect_image: argument 1 is no number of a name"
redirect "$image" 0 -1 && told "redirect_image: argument 2 is no number of a name"
redirect "$image" 0 1 2 "" && told "redirect_image: argument 4 is no number of a name"
redirect "$image" 0 4294967296 && told "redirect_image: argument 2 is no number of a name"
redirect "$image" 0 4294967295 && told "redirect_image: refused 13: "
redirect "$image" 0 1 $(seq 513) && told "redirect_image: more names are omitted than an image may have"
redirect /dev/null 0 1 && told "redirect_image: refused 1: "
head -c 70000 /dev/zero > "$work/long"
redirect "$work/long" 0 1 && told "redirect_image: refused 1: "
echo "wrong arguments are told in one line"

links=0
while IFS='|' read -r name intake link _; do
  target/bin/link_image < "vectors/$name.img" > "$work/out" 2> "$work/err"
  case "$intake $link" in
    "ok ok")
      cmp "$work/out" "vectors/$name.linked"
      cmp "$work/err" /dev/null
      # what is linked links to itself
      target/bin/link_image < "vectors/$name.linked" | cmp - "vectors/$name.linked"
      ;;
    "ok "*) told "link_image: $link: functions call one another in a ring" ;;
    *) told "link_image: $intake: " ;;
  esac
  links=$((links + 1))
done < <(tr '\t' '|' < vectors/expected.tsv)
target/bin/link_image < "$work/long" > "$work/out" 2> "$work/err"
told "link_image: refused 1: "
echo "$links links agree, and every refusal is said on standard error and writes nothing"

for program in check_image order redirect_image link_image replay; do
  case $program in
    redirect_image) words=(0 1) ;;
    *) words=() ;;
  esac
  # replay reads packed vectors, of which there may be none
  if [ $program = replay ]; then image=/dev/null; fi
  run() { target/bin/$program "${words[@]}"; }
  run < . > "$work/out" 2> "$work/err"
  told "$program: standard input: Is a directory"
  run <&- > "$work/out" 2> "$work/err"
  told "$program: standard input: Bad file descriptor"
  : > "$work/out"
  run < "$image" > /dev/full 2> "$work/err"
  told "$program: standard output: No space left on device"
  run < "$image" >&- 2> "$work/err"
  told "$program: standard output: Bad file descriptor"
done
echo "a failed read and a failed write are told in one line each"
