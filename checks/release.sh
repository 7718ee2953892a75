#!/usr/bin/env bash
# Makes a release in dist/ from the program that the gate built, and tries it: an archive that runs where it
# is unpacked, and a package for Debian. Give it after .ci/run has passed. Where the environment variable TMM
# names another program, that one is packed for a trial, and the note in the release says that it is unproved.
# It takes git, tar, dpkg-deb and python3.
set -u
cd "$(dirname "$0")/.." || exit 1
. ./prove

refuse() {
  echo "checks: no release: $1" >&2
  exit 1
}

version=$(cat VERSION)
commit=$(git rev-parse HEAD) || refuse "this is no clone"
[[ $version =~ ^[0-9]+\.[0-9]+\.[0-9]+$ ]] || refuse "VERSION is no version: '$version'"
if [ -n "${TMM:-}" ]; then
  packed=$TMM
  proof="UNPROVED: this program was made for a trial, and nothing is known of it."
else
  is_current || refuse "the program is not built from the present sources: give .ci/run"
  [ -z "$(git status --porcelain)" ] || refuse "files differ from those of the commit"
  packed=$program
  proof="Proved: built from the sources of this commit after their proofs, by this toolchain."
fi
[ -x "$packed" ] || refuse "there is no program $packed"

work=$(mktemp -d) || exit 1
trap 'rm -rf "$work"' EXIT
export SOURCE_DATE_EPOCH
SOURCE_DATE_EPOCH=$(git log -1 --format=%ct)
name=tmm-$version-linux-x86_64
# the newest version of libc that the program asks for
libc=$(grep -ao 'GLIBC_[0-9.]*' "$packed" | sort -uV | tail -n 1)
libc=${libc#GLIBC_}

# ---- what both hold

cat >"$work/RELEASE" <<N || exit 1
tmm $version for Linux on x86-64, with libc ${libc:-of any version}
commit $commit
toolchain $(toolchain || echo unknown)
sha256 of the program $(sha256sum "$packed" | cut -d' ' -f1)
$proof
N
sed "s/^\.TH TMM 1 \"\" \"tmm\"/.TH TMM 1 \"\" \"tmm $version\"/" docs/tmm.1 >"$work/tmm.1"
grep -q "\"tmm $version\"" "$work/tmm.1" || refuse "docs/tmm.1 has no head to put the version in"

# put_texts FOLDER: documents, examples and the note
put_texts() {
  git -c tar.umask=022 archive HEAD README.md CHANGELOG.md VERSION docs examples | tar -x -C "$1" && rm "$1"/docs/tmm.{1,bash} &&
    cp "$work/RELEASE" "$1"
}

# ---- the archive, and the package

top=$work/$name
mkdir -p "$top"
put_texts "$top" && git -c tar.umask=022 archive HEAD clients | tar -x -C "$top" && install -m 755 "$packed" "$top/tmm" &&
  cp "$work/tmm.1" docs/tmm.bash "$top/docs" || exit 1
mkdir -p dist
archive=dist/$name.tar.gz
tar --sort=name --owner=0 --group=0 --numeric-owner --mtime="@$SOURCE_DATE_EPOCH" -C "$work" -c "$name" | gzip -9n >"$archive" || exit 1

tree=$work/tree
documents=$tree/usr/share/doc/tmm
library=usr/lib/python3/dist-packages
mkdir -p "$tree"/{DEBIAN,usr/bin,usr/share/man/man1,usr/share/bash-completion/completions,"$library"} "$documents"
put_texts "$documents" && install -m 755 "$packed" "$tree/usr/bin/tmm" || exit 1
gzip -9n <"$work/tmm.1" >"$tree/usr/share/man/man1/tmm.1.gz"
cp docs/tmm.bash "$tree/usr/share/bash-completion/completions/tmm"
sed -n '/^## Licence/,/^## Where/{/^##/d;/./p}' README.md >"$documents/copyright"
# the modules of the client, without its tests and what pip needs
for module in "$top"/clients/python/tmm*; do cp -r "$module" "$tree/$library/"; done
cat >"$tree/DEBIAN/control" <<C
Package: tmm
Version: $version
Architecture: amd64
Maintainer: $(git log -1 --format='%an <%ae>')
Depends: libc6${libc:+ (>= $libc)}
Suggests: python3, rlwrap
Section: science
Priority: optional
Description: time map manager
 A temporal database for planners and schedulers, which answers a script of
 points, distances, facts and rules line by line. Each answer is proved.
C
package=dist/tmm_${version}_amd64.deb
dpkg-deb --root-owner-group --build "$tree" "$package" >/dev/null || exit 1

# ---- both tried, where nothing else is

failed=0
fail() {
  echo "checks: the release: $1" >&2
  failed=1
}

# try_program PROGRAM EXAMPLES
try_program() {
  "$1" <"$2/first.tmm" | cmp - "$2/first.out" >&2 || fail "$1 answers the first script otherwise than is written down"
}

# try_client CLONE MODULES: the tests of the client in a folder laid out as a clone, over these modules
try_client() (
  cd "$work" || exit 1
  unset TMM
  export PYTHONPATH=$2 PYTHONDONTWRITEBYTECODE=1 PATH=$1:$PATH
  if ! python3 -c 'import sys, tmm; sys.exit(not tmm.__file__.startswith(sys.argv[1]))' "$2"; then
    echo "checks: the release: python3 has another client than that of $2" >&2
    exit 1
  fi
  if ! told=$(python3 -m unittest discover -s "$1/clients/python/tests" 2>&1) || ! grep -q '^Ran [1-9]' <<<"$told"; then
    echo "$told" >&2
    exit 1
  fi
)

unpacked=$work/unpacked
mkdir "$unpacked"
tar -xzf "$archive" -C "$unpacked" || exit 1
try_program "$unpacked/$name/tmm" "$unpacked/$name/examples"
try_client "$unpacked/$name" "$unpacked/$name/clients/python" || fail "tests of the client failed where it is unpacked"

root=$work/root
mkdir -p "$root"/var/lib/dpkg/{info,updates}
: >"$root/var/lib/dpkg/status"
if [ "$(id -u)" -eq 0 ]; then
  # libc is not in this root; the program takes that of the system
  dpkg --root="$root" --force-depends --install "$package" >"$work/told" 2>&1 || { cat "$work/told" >&2; fail "dpkg does not install $package"; }
else
  dpkg-deb --extract "$package" "$root" || fail "dpkg-deb does not unpack $package"
fi
installed=$root/usr/share/doc/tmm
try_program "$root/usr/bin/tmm" "$installed/examples"
[ "$(gzip -dc "$root/usr/share/man/man1/tmm.1.gz" | cmp - "$work/tmm.1" && cat "$installed/RELEASE")" = "$(cat "$work/RELEASE")" ] ||
  fail "the manual page or the note is another"
bash -c '. "$1"; COMP_WORDS=(tmm d); COMP_CWORD=1; _tmm; [ "${COMPREPLY[*]}" = demo ]' - \
  "$root/usr/share/bash-completion/completions/tmm" || fail "the completion does not know demo"
# the tests are in no package: they stand beside what is installed, as in a clone
beside=$work/beside
mkdir "$beside"
cp -r "$unpacked/$name/clients" "$installed/docs" "$installed/examples" "$root/usr/bin/tmm" "$beside" || exit 1
try_client "$beside" "$root/$library" || fail "tests of the client failed where it is installed"

(cd dist && sha256sum "$name.tar.gz" "tmm_${version}_amd64.deb" >SHA256SUMS) || exit 1
if [ "$failed" -ne 0 ]; then
  rm -f "$archive" "$package" dist/SHA256SUMS
  exit 1
fi
cat "$work/RELEASE" dist/SHA256SUMS
