#!/bin/sh
# Installs vcm: ./install.sh [FOLDER], below /usr/local without one. To take it away again, delete the files that it names.
set -eu
here=$(cd "$(dirname "$0")" && pwd)
to=${1:-/usr/local}
mkdir -p "$to"
cp -R "$here/bin" "$here/share" "$to/"
(cd "$here" && find bin share -type f | sed "s|^|$to/|")
"$to/bin/vcm" --version
