#!/bin/sh
# Compiles a program and prints its bytes as `prog load` takes them: `sh bytes.sh deny-list` for an example, or
# `sh bytes.sh FILE.c` for a file of your own, which may include xdp.h. docs/PROGRAMS.md says what such a file may have.
# Further words are handed to clang: `sh bytes.sh FILE.c -mcpu=v3 -DLIMIT=100`.
#
# The blocks stay in the order of the source, since bpfcon takes no jump backwards. What a loader would have to fill in is
# refused, with the symbol that is named: bpfcon loads bytes and not an object.
set -e
here=$(dirname "$0")

refuse() {
    echo "bytes.sh: $1" >&2
    exit 1
}

[ $# -ge 1 ] || refuse 'usage: sh bytes.sh FILE.c, or the name of an example'
source=$1
[ -f "$source" ] || source=$here/$1.c
[ -f "$source" ] || refuse "there is no file $1"
shift
object=$(mktemp)
trap 'rm -f "$object" "$object.bytes" "$object.places"' EXIT
clang -target bpf -O2 -mllvm -disable-block-placement -Wall -I "$here" "$@" -c "$source" -o "$object"

# The symbols of a section, but for that of the section itself and labels.
symbols_of() {
    llvm-objdump --syms "$object" | awk -v section="$1" '
        NF > 4 && $(NF - 2) == section && $NF != section && $NF !~ /^LBB/ { printf "%s%s", between, $NF; between = " " }'
}

case $(symbols_of xdp) in
    '') refuse 'no function is in the section xdp' ;;
    *' '*) refuse "more than one function is in the section xdp: $(symbols_of xdp)" ;;
esac
llvm-readelf --relocations "$object" | awk '
    /^Relocation section/ { here = $3 == "\047.relxdp\047" }
    here && /R_BPF/ { print $1, $5 }' >"$object.places"
while read -r offset symbol; do
    case $symbol in
        .*)
            inside=$(symbols_of "$symbol")
            symbol="$symbol${inside:+ ($inside)}"
            ;;
    esac
    echo "bytes.sh: slot $((0x$offset / 8)) names $symbol" >&2
done <"$object.places"
if [ -s "$object.places" ]; then
    refuse 'such a program needs a loader: docs/PROGRAMS.md says what it may have'
fi

llvm-objcopy -O binary --only-section=xdp "$object" "$object.bytes"
printf 'hex:%s\n' "$(od -An -v -tx1 "$object.bytes" | tr -d ' \n')"
