#!/bin/sh
# build.sh [OUT [ARCHIVES]]: builds libvicemint.a, a pkg-config file and the example into the folder OUT, which is build/c where none is
# named, and runs the example. The folder ARCHIVES has a static library for each crate; without it they are proved and built here, which
# takes the kit, and half an hour where nothing is proved yet. CC, CFLAGS, AR, RANLIB and NM name other tools, and RUN what runs the example.
set -eu
case "${1-}" in
    -h | --help) sed -n '2,5s/^# //p' "$0"; exit 0 ;;
    -*) echo "usage: build.sh [OUT [ARCHIVES]]" >&2; exit 2 ;;
esac
[ $# -le 2 ] || { echo "usage: build.sh [OUT [ARCHIVES]]" >&2; exit 2; }

CRATES="sink_c link_c source_c stream_c layouts_c"
CALLED="memcpy memmove memset rattle_alloc rattle_dealloc rattle_realloc"
c=$(cd "$(dirname "$0")" && pwd)
top=$(dirname "$c")
mkdir -p "${1:-$top/build/c}"
out=$(cd "${1:-$top/build/c}" && pwd)

# The names that an archive defines, or that it calls.
names() { "${NM:-nm}" -P "$@" 2>/dev/null | awk 'NF > 1 && $1 !~ /:$/ { print $1 }' | sort; }

if [ $# -eq 2 ]; then archives=$(cd "$2" && pwd); else archives=$out/archives; python3 "$top/tools/archives.py" "$archives"; fi
script="CREATE $out/libvicemint.a"
for crate in $CRATES; do
    script="$script
ADDLIB $archives/lib$crate.a"
done
rm -f "$out/libvicemint.a"
printf '%s\nSAVE\nEND\n' "$script" | "${AR:-ar}" -M
"${RANLIB:-ranlib}" "$out/libvicemint.a"

defined=$(names -g --defined-only "$out/libvicemint.a")
twice=$(echo "$defined" | uniq -d)
[ -z "$twice" ] || { echo "build.sh: defined twice: $twice" >&2; exit 1; }
called=$(names -u "$out/libvicemint.a" | uniq | awk -v defined="$defined" '
    BEGIN { split(defined, all, "\n"); for (at in all) own[all[at]] }
    !($1 in own) { printf "%s ", $1 }')
[ "$called" = "$CALLED " ] || { echo "build.sh: the library calls $called" >&2; exit 1; }

sed -e "s|@PREFIX@|$top|; s|@LIBDIR@|$out|; s|@INCLUDEDIR@|$c|; s|@VERSION@|$(cat "$top/VERSION")|" "$c/vicemint.pc.in" >"$out/vicemint.pc"
echo "$out/libvicemint.a has $(echo "$defined" | wc -l) calls"
command -v "${CC:-cc}" >/dev/null || { echo "build.sh: no C compiler, so the example is not built" >&2; exit 0; }
# shellcheck disable=SC2086 # words of a command line
"${CC:-cc}" -std=c99 -O2 ${CFLAGS-} -I"$c" -o "$out/stereo" "$c"/examples/*.c "$c/memory_malloc.c" "$out/libvicemint.a"
# shellcheck disable=SC2086 # words of a command line
${RUN-} "$out/stereo"
