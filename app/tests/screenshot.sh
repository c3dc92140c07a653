#!/usr/bin/env bash
# Opens the demo's report in headless Chromium and keeps its picture as docs/report.png, the one that README.md shows.
# With a folder's name it also leaves there what a person should look at, by each set of borders: light, dark, on a phone, and
# the A4 pages.
# Not part of the gate: it needs Debian's chromium, and installs it where it may.
set -euo pipefail
root=$(cd "$(dirname "$0")/../.." && pwd)
looks=${1:-}
program=${CARGO_TARGET_DIR:-$root/target}/release/burrcradle
command -v chromium > /dev/null || apt-get install -y --no-install-recommends chromium
work=$(mktemp -d)
trap 'rm -rf "$work"' EXIT
(cd "$root" && cargo build --release --quiet)
(cd "$work" && "$program" demo > /dev/null)

# picture FILE WIDTH HEIGHT PAGE [OPTION...]
picture() {
    chromium --headless --no-sandbox --disable-gpu --hide-scrollbars --user-data-dir="$work/profile" \
        --allow-file-access-from-files --window-size="$2,$3" --screenshot="$1" "${@:5}" "file://$work/$4" > /dev/null 2>&1
    [ -s "$1" ]
}

# height WIDTH: how high the page is when it is so wide, so that a picture has all of it and nothing below it
height() {
    cat > "$work/height.html" << END
<body><iframe src="demo.html" style="width:$1px;height:600px;border:0"></iframe><p></p>
<script>onload = () => document.querySelector('p').textContent =
    'height ' + document.querySelector('iframe').contentDocument.documentElement.scrollHeight</script>
END
    chromium --headless --no-sandbox --disable-gpu --hide-scrollbars --user-data-dir="$work/profile" \
        --allow-file-access-from-files --dump-dom "file://$work/height.html" 2> /dev/null | sed -n 's/.*<p>height \([0-9]*\).*/\1/p'
}

# views PREFIX: the page that is there, in every way that it is read
views() {
    local wide narrow
    wide=$(height 1080)
    picture "$1-light.png" 1080 "$wide" demo.html
    picture "$1-dark.png" 1080 "$wide" demo.html --blink-settings=preferredColorScheme=0
    # A window is never that narrow; a frame in one is.
    narrow=$(height 390)
    echo "<body style=\"margin:0\"><iframe src=\"demo.html\" style=\"width:390px;height:${narrow}px;border:0\">" > "$work/phone.html"
    picture "$1-phone.png" 390 "$narrow" phone.html
    chromium --headless --no-sandbox --disable-gpu --user-data-dir="$work/profile" --no-pdf-header-footer \
        --print-to-pdf="$1-a4.pdf" "file://$work/demo.html" > /dev/null 2>&1
}

mkdir -p "$root/docs"
whole=$(height 1080)
[ -n "$whole" ]
picture "$work/report.png" 1080 "$whole" demo.html
mv "$work/report.png" "$root/docs/report.png"
if [ -n "$looks" ]; then
    mkdir -p "$looks"
    for set in unipede 4-11; do
        (cd "$work" && "$program" demo --borders "$set" > /dev/null)
        views "$looks/$set"
    done
fi
ls -l "$root/docs/report.png"
