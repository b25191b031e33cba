#!/usr/bin/env bash
# Makes a tarball of the proved program with its manual page, completions and editors' files: of a commit that has passed the
# gate in this checkout, and of no other. The file RELEASE in it says version, commit, toolchain and the gate's last lines,
# SHA256SUMS the sum of each file.
#
#     script/release.sh [FOLDER]      where the tarball goes, by default out/
set -euo pipefail

cd -- "$(dirname -- "$0")/.."
say() { echo "release.sh: $*" >&2; }
commit=$(git rev-parse HEAD)
if [ -n "$(git status --porcelain)" ]; then
    say "there are changes that are not committed"
    exit 1
fi
if [ "$(head -n 1 out/gate 2>/dev/null)" != "$commit" ]; then
    say "tests/all.sh has not passed here on this commit, $commit"
    exit 1
fi
version=$(cat VERSION)
name=autolock-$version-x86_64-linux
room=$(mktemp -d)
trap 'rm -rf "$room"' EXIT
DESTDIR=$room ./autolock --install "/$name"
{
    echo "version $version"
    echo "commit $commit"
    echo "toolchain $(sed -n 2p out/gate)"
    sed -n '3,$s/^/gate: /p' out/gate
} >"$room/$name/RELEASE"
cp README.md CHANGELOG.md "$room/$name"
(cd "$room/$name" && find . -type f ! -name SHA256SUMS -printf '%P\0' | LC_ALL=C sort -z | xargs -0 sha256sum >SHA256SUMS)
folder=${1:-out}
mkdir -p "$folder"
# (the same files make the same tarball)
tar --sort=name --owner=0 --group=0 --numeric-owner --mtime="@$(git log -1 --format=%ct)" -C "$room" -c "$name" |
    gzip -n >"$folder/$name.tar.gz.new"
mv "$folder/$name.tar.gz.new" "$folder/$name.tar.gz"
(cd "$folder" && sha256sum "$name.tar.gz")
