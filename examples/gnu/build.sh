#!/bin/sh
# Assembles and links the thermostat into out/, and checks what came out against the dumps. Where GNU as and ld for
# PowerPC are missing it says so and ends with 0; the committed image.elf is what they gave. The check is made where the program
# is built (its status is then this script's). `build.sh --update` copies the new image and its map over the committed ones.
cd "$(dirname "$0")" || exit 70
root=../..
for tool in powerpc-linux-gnu-as powerpc-linux-gnu-ld; do
    if ! command -v "$tool" >/dev/null; then
        echo "examples/gnu: skipped, without $tool"
        exit 0
    fi
done
mkdir -p out || exit 70
for unit in start driver main smooth mode; do
    powerpc-linux-gnu-as -o "out/$unit.o" "$unit.s" || exit 1
done
(cd out && powerpc-linux-gnu-ld --nmagic -T ../link.ld -Map image.map -o image.elf start.o driver.o main.o smooth.o mode.o) || exit 1
chmod a-x out/image.elf
if [ "$1" = --update ]; then
    cp out/image.elf out/image.map . || exit 70
elif cmp -s out/image.elf image.elf; then
    echo "examples/gnu: assembled and linked, byte for byte the committed image"
else
    echo "examples/gnu: assembled and linked; the bytes are others than those of the committed image, as another release of the tools may give"
fi
if [ ! -x "$root/crates/report_cmd/out/report_cmd" ]; then
    echo "examples/gnu: not checked, the program is not built"
    exit 0
fi
exec "$root/valex" check layout.json out/image.elf main.json smooth.json mode.json
