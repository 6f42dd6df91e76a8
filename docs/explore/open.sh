#!/usr/bin/env bash
# Opens the learners' page in a browser, or prints its path where there is none.
page=$(cd "$(dirname "$0")" && pwd)/index.html
if [ "$(uname)" = Darwin ]; then
    open "$page" && exit
elif [ -n "${DISPLAY-}${WAYLAND_DISPLAY-}" ]; then
    xdg-open "$page" 2>/dev/null && exit
fi
echo "$page"
