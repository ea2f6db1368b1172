#!/usr/bin/env bash
# Compiles the header in C and C++ and the C examples with every warning an error. Replays the vectors' orders through one, numbers alone; links the
# vectors' images by a session through another, which maps the spans of P1 to P4 too, and all of them in one memory through the third. Gives them wrong
# arguments, input that cannot be read and output that cannot be written. Wants the archive in target/staticlib.
set -euo pipefail
cd "$(dirname "$0")/.."

work=$(mktemp -d)
trap 'rm -rf "$work"' EXIT

g++ -x c++ -Wall -Wextra -Wpedantic -Werror -fsyntax-only include/wuldgisp.h
for example in order session many; do
  gcc -std=c99 -Wall -Wextra -Wpedantic -Werror -Iinclude "examples/$example.c" target/staticlib/libwuldgisp.a -o "$work/${example}_c"
done

orders=0
for expected in vectors/*.order; do
  "$work/order_c" < "${expected%.order}.img" > "$work/order" || [ $? = 1 ]
  # without names, which may be any bytes
  { echo accepted; LC_ALL=C sed -n 's/^\([0-9][0-9]* [0-9][0-9]*\) .*/\1/p; /^refused /p' "$expected"; } | cmp - "$work/order"
  orders=$((orders + 1))
done
echo "$orders orders agree, called from C"

sessions=0
while IFS='|' read -r name intake link _; do
  status=0
  "$work/session_c" "$work/linked" < "vectors/$name.img" > "$work/steps" || status=$?
  case "$intake $link" in
    "ok ok")
      [ "$status" = 0 ]
      cmp "$work/linked" "vectors/$name.linked"
      # P1 to P4
      printf '2 %s # map_span\n' "0 0 0 = 0 0 0" "0 4 0 = 0 10 14" "5 9 0 = 0 4294967295 3" "6 6 0 = 0 0 0" > "$work/spans"
      grep '^2 ' "$work/steps" | cmp - "$work/spans"
      [ "$(grep -c '^9 .* = 0 ' "$work/steps")" = "$(($(wc -l < "$work/steps") - 8))" ]
      ;;
    "ok refused 12 "*)
      [ "$status" = 1 ]
      echo "$link" | cmp - "$work/steps"
      [ ! -e "$work/linked" ]
      ;;
    *)
      [ "$status" = 1 ]
      number=${intake#refused }
      grep -q "^0 0 [0-9]* 0 = $number 0 0 # set\$" "$work/steps"
      [ "$(grep -c '^[2-9].* = 20 0 0 # \|^14 .* = 20 0 0 # ' "$work/steps")" = 5 ]
      [ "$(tail -n 1 "$work/steps")" = "step 0 was refused first, by $number" ]
      [ ! -e "$work/linked" ]
      ;;
  esac
  rm -f "$work/linked"
  sessions=$((sessions + 1))
done < <(tr '\t' '|' < vectors/expected.tsv)
echo "$sessions sessions agree, called from C: what they link, P1 to P4, and refusals"

# twice in a row, so that every image is linked behind others
links=0
mkdir "$work/many"
names=()
while IFS='|' read -r name intake link _; do
  cp "vectors/$name.img" "$work/many"
  names+=("$name.img")
  case "$intake $link" in
    "ok ok") echo "$name.img: linked, $(stat -c %s "vectors/$name.linked") bytes" ;;
    "ok "*) echo "$name.img: $link" ;;
    *) echo "$name.img: $intake" ;;
  esac
  links=$((links + 1))
done < <(tr '\t' '|' < vectors/expected.tsv) > "$work/lines"
(cd "$work/many" && "$work/many_c" "${names[@]}" "${names[@]}") > "$work/links" || [ $? = 1 ]
cat "$work/lines" "$work/lines" | cmp - "$work/links"
for expected in vectors/*.linked; do
  name=${expected#vectors/}
  cmp "$expected" "$work/many/${name%.linked}.img.linked"
done
[ "$(ls "$work/many" | grep -c '\.linked$')" = "$(ls vectors | grep -c '\.linked$')" ]
echo "$links images agree, linked from C in one memory"

# the status of the last command is this one, and standard error is one line that ends so
ended() {
  if [ "$status" != "$1" ] || [ "$(wc -l < "$work/err")" != 1 ] || [[ "$(cat "$work/err")" != *"$2" ]]; then
    echo "expected status $1 and the line '..$2', and got status $status and:" >&2
    cat "$work/err" >&2
    exit 1
  fi
}

image=vectors/r000.img
example() {
  status=0
  "$work/$program" "$@" 2> "$work/err" || status=$?
}
program=order_c
example 0 1 < "$image" > /dev/null
[ "$status" = 0 ]
example 0 4294967296 < "$image" && ended 2 ": argument 2 is no number of a name"
example 4294967297 1 < "$image" && ended 2 ": argument 1 is no number of a name"
example -- -1 < "$image" && ended 2 ": argument 1 is no number of a name"
example 0 1x < "$image" && ended 2 ": argument 2 is no number of a name"
example 0 "" < "$image" && ended 2 ": argument 2 is no number of a name"
example 0 < "$image" && ended 2 " [ORIGINAL REPLACEMENT] < IMAGE"
program=session_c
example one two < "$image" && ended 2 " [FILE] < IMAGE"
example "$work/none/linked" < "$image" > /dev/null && ended 2 "/none/linked: No such file or directory"
example /dev/full < "$image" > /dev/null && ended 2 ": /dev/full: No space left on device"
program=many_c
linked=$work/many/001.img
example && ended 2 " FILE..."
example "$linked" "$work/none.img" "$linked" > "$work/links" && ended 2 "/none.img: No such file or directory"
[ "$(wc -l < "$work/links")" = 2 ]
example . && ended 2 ": .: Is a directory"
mkdir "$work/full.img.linked" && cp "$linked" "$work/full.img"
example "$work/full.img" && ended 2 "/full.img.linked: Is a directory"
example "$linked" > /dev/full && ended 2 ": standard output: No space left on device"
example "$linked" >&- && ended 2 ": standard output: Bad file descriptor"
for program in order_c session_c; do
  example < . && ended 2 ": standard input: Is a directory"
  example <&- && ended 2 ": standard input: Bad file descriptor"
  example < "$image" > /dev/full && ended 2 ": standard output: No space left on device"
  example < "$image" >&- && ended 2 ": standard output: Bad file descriptor"
done
echo "misuse of the C examples, a failed read and a failed write are told and end with status 2"
