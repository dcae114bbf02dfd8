# shellcheck shell=bash
# Makes the Debian packages from a tree that packaging/build.sh has laid out. tools/release reads this file after that
# one. Before it makes packages it sets `commit`, and `dist`, the folder in which it builds the release.
# shellcheck disable=SC2154

multiarch=lib/x86_64-linux-gnu
maintainer='Kijolvar maintainers <maintainers@users.noreply.kijolvar.example>'

# take TREE FROM TO: copies files of the tree, FROM being a pattern, to a folder of the package
take() {
  mkdir -p "$3"
  # shellcheck disable=SC2086
  cp -a "$1"/$2 "$3"
}

# lay_kijolvar TREE TO: the programs and what is read
lay_kijolvar() {
  local shell
  take "$1" 'bin/*' "$2/usr/bin"
  take "$1" 'share/kijolvar/scripts' "$2/usr/share/kijolvar"
  take "$1" 'share/doc/kijolvar/*' "$2/usr/share/doc/kijolvar"
  take "$1" 'share/man/man1/*' "$2/usr/share/man/man1"
  gzip -9n "$2"/usr/share/man/man1/*
  rm "$2/usr/share/doc/kijolvar/CHANGELOG.md"
  for shell in bash-completion fish; do
    [ ! -d "$1/share/$shell" ] || take "$1" "share/$shell" "$2/usr/share"
  done
  [ ! -d "$1/share/zsh" ] || take "$1" 'share/zsh/site-functions/*' "$2/usr/share/zsh/vendor-completions"
}

# lay_libkijolvar TREE TO: the shared object
lay_libkijolvar() {
  take "$1" "lib/libkijolvar.so.$major" "$2/usr/$multiarch"
  mkdir -p "$2/DEBIAN"
  echo "libkijolvar $major libkijolvar (>= $version), libkijolvar (<< $((major + 1))~)" > "$2/DEBIAN/shlibs"
  echo 'activate-noawait ldconfig' > "$2/DEBIAN/triggers"
}

# lay_libkijolvar-dev TREE TO: what a program is built with
lay_libkijolvar-dev() {
  mkdir -p "$2/usr"
  install_library "$2/usr" "$multiarch" ../../../.. /usr
  rm "$2/usr/$multiarch/libkijolvar.so.$major"
  take "$1" 'share/doc/kijolvar/examples/sale.*' "$2/usr/share/doc/libkijolvar-dev/examples"
  rm "$2/usr/share/doc/libkijolvar-dev/examples/sale.py"
}

# lay_python3-kijolvar TREE TO: the Python package over the shared object, and the page
lay_python3-kijolvar() {
  local packages=$2/usr/lib/python3/dist-packages info=kijolvar-$version.dist-info
  mkdir -p "$packages" "$2/DEBIAN"
  (cd "$packages" && python3 -m zipfile -e "$dist/kijolvar-$version-$wheel.whl" .)
  ln -sf "../../../x86_64-linux-gnu/libkijolvar.so.$major" "$packages/kijolvar/libkijolvar.so"
  rm "$packages/$info/RECORD" "$packages/$info/WHEEL"
  take "$1" 'share/kijolvar/p*' "$2/usr/share/kijolvar"
  take "$1" 'share/kijolvar/emulator' "$2/usr/share/kijolvar"
  take "$1" 'share/doc/kijolvar/examples/sale.py' "$2/usr/share/doc/python3-kijolvar/examples"
  cp "$top/packaging/debian/python3-kijolvar.postinst" "$2/DEBIAN/postinst"
  cp "$top/packaging/debian/python3-kijolvar.prerm" "$2/DEBIAN/prerm"
}

# write_changelog TO: the changelog as Debian has it
write_changelog() {
  printf 'kijolvar (%s-1) unstable; urgency=medium\n\n  * Release %s: changelog.gz has what is new.\n\n -- %s  %s\n' \
    "$version" "$version" "$maintainer" "$(date -uR -d "@$SOURCE_DATE_EPOCH")" | gzip -9n > "$1/changelog.Debian.gz"
  gzip -9nc "$top/CHANGELOG.md" > "$1/changelog.gz"
}

# describe_deb NAME TO: writes the papers and the control files of a package
describe_deb() {
  local doc=$2/usr/share/doc/$1 overrides=$2/usr/share/lintian/overrides size
  mkdir -p "$doc" "$overrides" "$2/DEBIAN"
  fill "$top/packaging/debian/copyright" "$doc/copyright" "COMMIT=$commit"
  write_changelog "$doc"
  grep "^$1:" "$top/packaging/debian/lintian-overrides" > "$overrides/$1"
  chmod -R u=rwX,go=rX "$2"
  size=$(find "$2/usr" -type f -printf '%s\n' | awk '{ total += int(($1 + 1023) / 1024) } END { print total }')
  fill "$top/packaging/debian/$1.control" "$2/DEBIAN/control" "SIZE=$size" "GLIBC=$glibc" "MAINTAINER=$maintainer"
  (cd "$2" && find usr -type f -print0 | LC_ALL=C sort -z | xargs -0 md5sum > DEBIAN/md5sums)
  chmod 644 "$2"/DEBIAN/*
  find "$2/DEBIAN" \( -name postinst -o -name prerm \) -exec chmod 755 {} +
}

# pack_debs TREE: makes the four packages in $dist
pack_debs() {
  local name to
  for name in kijolvar libkijolvar libkijolvar-dev python3-kijolvar; do
    to=$work/debs/$name
    mkdir -p "$to"
    "lay_$name" "$1" "$to"
    describe_deb "$name" "$to"
    dpkg-deb --root-owner-group --threads-max=1 -Zxz --build "$to" "$dist/${name}_${version}-1_amd64.deb" > /dev/null
  done
}

# check_debs: has lintian read the packages, if it is installed
check_debs() {
  if ! command -v lintian > /dev/null; then
    echo "note: lintian isn't installed: nothing has read the Debian packages"
    return 0
  fi
  lintian --allow-root --fail-on error,warning "$dist"/*.deb || stop "lintian found what is above"
}
