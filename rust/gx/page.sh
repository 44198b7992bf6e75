#!/usr/bin/env bash
# The sample pages: comparisons of a few entries, of 1,008 and of some that go 31 deep, and a page of each other command on the examples
# and on some 500 entries; as PDF too. Where Chromium is installed, it is looked in it whether the answer, the marked entry and the drawing
# are shown, and whether a page is wider than the window; no page has a script, so this is asked by a script in a copy.
set -euo pipefail
cd "$(dirname "$0")/../.."
out=target/page
mkdir -p "$out"
cargo build --release --quiet --manifest-path rust/gx/Cargo.toml --bin gx --example large
gx=$PWD/rust/gx/target/release/gx
large=rust/gx/target/release/examples/large
for part in supplier service; do "$large" $part > "$out/large-$part.txt"; done
"$large" names > "$out/large.names"

# A no ends with 1; anything else is wrong here.
page() { "$gx" compare "$1" "$2" --names "$3" --html "$out/$4.html" --svg "$out/$4.svg" > "$out/$4.txt" || test $? = 1; }
page examples/supplier.txt examples/service.txt examples/laboratory.names small
page "$out/large-supplier.txt" "$out/large-service.txt" "$out/large.names" large
deep() { local open="" close="" i; for ((i = 0; i < $1; i++)); do open+="every sample ["; close+="]"; done; echo "$open$2$close"; }
for depth in $(seq 0 30); do deep "$depth" "at least 1 sample"; done > "$out/deep-supplier.txt"
deep 31 "has sealed" > "$out/deep-service.txt"
page "$out/deep-supplier.txt" "$out/deep-service.txt" examples/laboratory.names deep
"$gx" catalogue examples/supplier.blocks examples/services --quiet --html "$out/catalogue" || test $? = 1
"$gx" hierarchy examples/supplier.blocks examples/services --quiet --html "$out/hierarchy.html" --svg "$out/hierarchy.svg"
north=examples/spring/north.txt south=examples/spring/south.txt services=examples/spring/services
words="--names examples/spring/laboratory.names --quiet"
"$gx" narrowest $north $south $words --html "$out/narrowest.html"
"$gx" missing $north $services/few-cores.txt $words --html "$out/missing.html"
"$gx" keep $north $services/sealed-cores.txt $words --html "$out/keep.html"
"$gx" doubles $services $words --html "$out/doubles.html"
"$gx" show --sheet $north $words --html "$out/sheet.html"
"$gx" delivered examples/spring/delivered.csv $services/twin-cores.txt $words --html "$out/delivered.html" || test $? = 1
rm -f "$out/draft" "$out/draft~"
"$gx" desk "$out/draft" $words --against $services --html "$out/desk.html" < examples/spring/draft.steps
for part in supplier service; do sed -n '/^every link 112 \[$/,$p' "$out/large-$part.txt" > "$out/half-$part.txt"; done
for command in narrowest missing; do
    "$gx" $command "$out/half-supplier.txt" "$out/half-service.txt" --names "$out/large.names" --quiet --html "$out/large-$command.html"
done
echo "The pages are written into $out"

chromium=$(command -v chromium || command -v chromium-browser || true)
if [ -z "$chromium" ]; then
    echo "Chromium is not installed: the pages are not looked at (apt-get install chromium)"
    exit 0
fi
look() { timeout 60 "$chromium" --headless --no-sandbox --disable-gpu --hide-scrollbars "$@" 2> "$out/chromium.log"; }
for name in small large deep hierarchy narrowest missing keep doubles sheet delivered desk large-narrowest large-missing; do
    case $name in
        small | large | deep) parts="answer entry drawing mark" ;;
        hierarchy) parts="answer drawing" ;;
        *) parts=answer ;;
    esac
    for width in 1280 390; do
        copy="$out/$name-looked-at.html"
        { cat "$out/$name.html"; cat rust/gx/seen.html; } > "$copy"
        look --window-size=$width,1200 --dump-dom "file://$PWD/$copy" > "$out/$name.dom"
        for part in $parts; do
            grep -q "seen $part" "$out/$name.dom" || { echo "$name page, $width wide: $part is not shown"; exit 1; }
        done
        if grep -q "seen overflow" "$out/$name.dom"; then echo "$name page, $width wide: it is wider than the window"; exit 1; fi
        rm "$copy" "$out/$name.dom"
    done
    look --window-size=1280,2400 --screenshot="$out/$name.png" "file://$PWD/$out/$name.html" > "$out/chromium.log"
    look --no-pdf-header-footer --print-to-pdf="$out/$name.pdf" "file://$PWD/$out/$name.html" > "$out/chromium.log"
    echo "$name page, shown in Chromium: $parts"
done
rm -f "$out/chromium.log"
