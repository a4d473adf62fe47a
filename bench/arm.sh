#!/usr/bin/env bash
# The twin on 32-bit Arm, its turns in 32 bits and in 64: its multiplications as compiled for two processors, and the instructions
# that it executes there under an emulator. Armv6-m has no long product: each one of 64 bits calls a routine. The emulator runs no
# such processor; Thumb code of armv5te has no long product either, and is run in its place.
set -euo pipefail
cd "$(dirname "$0")/.."
arm=arm-linux-gnueabi out=build/bench/arm map=fields1000

lacking=
command -v $arm-gcc >/dev/null || lacking+=' gcc-arm-linux-gnueabi'
echo '#include <stdio.h>' | $arm-gcc -E - >/dev/null 2>&1 || lacking+=' libc6-dev-armel-cross'
command -v qemu-arm >/dev/null || lacking+=' qemu-user'
if [ -n "$lacking" ]; then
  echo "bench-arm: install first:$lacking"
  exit
fi

# The library is not made for Arm: where count.c would call it, it calls the twin.
calls=
for call in insert delete locate window; do calls+=" -Dboundary_map_$call=twin_$call"; done

# compiled FILE NAME FLAGS...: bench/FILE.c as an object of that name.
compiled() {
  local file=$1 name=$2
  shift 2
  # shellcheck disable=SC2086
  $arm-gcc -std=c99 -O2 -Iinclude $calls "$@" -c bench/$file.c -o $out/$name.o
}

# linked NAME FLAGS...: count.c with the twin, and a map that says where the twin is.
linked() {
  local name=$1 file
  shift
  for file in count mapfile twin points window; do compiled $file $name-$file "$@"; done
  $arm-gcc -static $out/$name-{count,mapfile,twin,points,window}.o -Wl,-Map=$out/$name.map -o $out/$name
}

# found NAME PATTERN: how many instructions of the object are such.
found() { $arm-objdump -d $out/$1.o | awk -F'\t' -v p="$2" '$3 ~ p { n++ } END { print n + 0 }'; }

# called NAME: how often the routine for products of 64 bits is called in the object.
called() { $arm-objdump -d -r $out/$1.o | awk '/R_ARM_.*__aeabi_lmul/ { n++ } END { print n + 0 }'; }

bytes() { $arm-size $out/$1.o | awk 'END { print $1 }'; }

address() { $arm-nm $out/$1 | awk -v s="$2" '$3 == s { print $1 }'; }

# executed NAME CALL: the instructions of the twin in that call, and how often it calls the routine. One line of trace for each.
executed() {
  local twin begin routine
  twin=$(awk '$1 == ".text" && $4 ~ /-twin\.o$/ { print $2 "+" $3 }' $out/$1.map)
  case $2 in insert) begin=$(address $1 twin_insert) ;; *) begin=$(address $1 twin_locate) ;; esac
  routine=$(address $1 __aeabi_lmul)
  qemu-arm -singlestep -d nochain,exec -dfilter "$twin${routine:+,0x$routine+2}" -D /dev/stdout $out/$1 twin $2 bench/maps/$map.txt |
    awk -F/ -v begin="$begin" -v routine="${routine:-none}" '
      $2 == begin { n = calls = 0 }
      $2 == routine { calls++; next }
      { n++ }
      END { print n, calls + 0 }'
}

compile_all() {
  local bits
  mkdir -p $out
  for bits in 32 64; do
    linked arm-$bits -march=armv5te -marm -DTURNS_$bits
    linked thumb-$bits -march=armv5te -mthumb -DTURNS_$bits
    compiled twin m-$bits -march=armv6-m -mthumb -DTURNS_$bits
  done
}

row() { printf '%-32s %12s %12s %12s %12s\n' "$@"; }

tell_code() {
  local short='^(mul|mla|mls)' long='^[su](mul|mla)l'
  row 'in the code of the twin' '32 bits' '64 bits' '' ''
  row 'armv5te: products' "$(found arm-32-twin "$short")" "$(found arm-64-twin "$short")" '' ''
  row 'armv5te: long products' "$(found arm-32-twin "$long")" "$(found arm-64-twin "$long")" '' ''
  row 'armv6-m: products' "$(found m-32 "$short")" "$(found m-64 "$short")" '' ''
  row 'armv6-m: calls of __aeabi_lmul' "$(called m-32)" "$(called m-64)" '' ''
  row 'armv6-m: bytes' "$(bytes m-32)" "$(bytes m-64)" '' ''
}

tell_executed() {
  local what
  row "executed on $map" '32 bits' '64 bits' 'calls: 32' '64'
  for what in arm:soundness arm:insert arm:locate10000 thumb:soundness thumb:insert thumb:locate10000; do
    # shellcheck disable=SC2046
    set -- $(executed ${what%:*}-32 ${what#*:}) $(executed ${what%:*}-64 ${what#*:})
    row "$what" "$1" "$3" "$2" "$4"
  done
}

compile_all
tell_code
echo
tell_executed
