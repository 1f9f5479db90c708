#!/bin/sh
# Makes the fonts, builds premises.c and runs it: exit status 0 where all is as expected.
# Usage: run.sh [FOLDER], where the fonts are then left. Another FreeType: LD_LIBRARY_PATH.
set -e
cd "$(dirname "$0")"
folder=${1:-$(mktemp -d)}
test -n "$1" || trap 'rm -rf "$folder"' EXIT
mkdir -p "$folder"
python3 fonts.py "$folder"
# shellcheck disable=SC2046
${CC:-cc} -std=c11 -O2 -Wall -Wextra -Werror -o "$folder/premises" premises.c \
    $(pkg-config --cflags --libs freetype2)
"$folder/premises" "$folder"
