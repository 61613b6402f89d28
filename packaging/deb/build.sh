#!/usr/bin/env bash
# Makes a Debian package out of the program that `make run` or `make test` has built: build.sh PROGRAM FOLDER. It proves
# nothing, compiles nothing, and writes the package into FOLDER. The same program and the same files give the same
# package.
set -eu
program=$1
folder=$2
here=$(dirname "$(realpath "$0")")
repository=$(realpath "$here/../..")

if [ ! -x "$program" ]; then
    echo "$program isn't there: 'make run' or 'make test' builds it" >&2
    exit 1
fi
mkdir -p "$folder"
staging=$(mktemp -d)
trap 'rm -rf "$staging"' EXIT
root=$staging/root

changelog_field() {
    dpkg-parsechangelog -l "$here/changelog" -S "$1"
}

# The changelog's version, which has to be the program's.
version() {
    local told
    told=$("$program" --version)
    if [ "$told" != "ccnode $(changelog_field Version | sed 's/-[^-]*$//')" ]; then
        echo "the program tells '$told', and packaging/deb/changelog $(changelog_field Version)" >&2
        exit 1
    fi
    changelog_field Version
}

# The libraries that the program is linked with, as dependencies.
dependencies() {
    mkdir -p "$staging/shlibs/debian"
    printf 'Source: ccnode\n\nPackage: ccnode\nArchitecture: any\n' > "$staging/shlibs/debian/control"
    (cd "$staging/shlibs" && dpkg-shlibdeps -O "$root/usr/bin/ccnode") | sed -n 's/^shlibs:Depends=//p'
}

install_files() {
    make -s -C "$repository" install DESTDIR="$root" PREFIX=/usr PROGRAM="$(realpath "$program")" \
        ZSH_COMPLETIONS=/usr/share/zsh/vendor-completions
    strip --strip-unneeded --remove-section=.comment --remove-section=.note "$root/usr/bin/ccnode"
    install -D -m 644 "$here/copyright" "$root/usr/share/doc/ccnode/copyright"
    install -D -m 644 "$here/changelog" "$root/usr/share/doc/ccnode/changelog.Debian"
    mv "$root/usr/share/doc/ccnode/CHANGELOG.md" "$root/usr/share/doc/ccnode/changelog"
    sed -i 's,](CHANGELOG\.md),](changelog.gz),g' "$root"/usr/share/doc/ccnode/*.md
    gzip -9n "$root"/usr/share/doc/ccnode/changelog* "$root/usr/share/man/man1/ccnode.1"
    look_at_links
}

# Each link of the pages leads to a file of the package.
look_at_links() {
    local target
    (cd "$root/usr/share/doc/ccnode" && cat ./*.md <(zcat changelog.gz)) | grep -o '][(][^)#]*' | cut -c 3- |
        grep -v '://' | sort -u > "$staging/links"
    while read -r target; do
        if [ ! -e "$root/usr/share/doc/ccnode/$target" ]; then
            echo "a page of the package leads to $target, which isn't there" >&2
            exit 1
        fi
    done < "$staging/links"
}

write_control() {
    local size depends
    size=$(du -k -s --apparent-size "$root" | cut -f 1)
    depends=$(dependencies)
    mkdir "$root/DEBIAN"
    sed -e "s/@VERSION@/$1/" -e "s/@ARCHITECTURE@/$(dpkg --print-architecture)/" -e "s/@SIZE@/$size/" \
        -e "s/@DEPENDS@/$depends/" "$here/control" > "$root/DEBIAN/control"
    install -m 755 "$here/postinst" "$here/prerm" "$here/postrm" "$root/DEBIAN/"
    (cd "$root" && find usr -type f -print0 | sort -z | xargs -0 md5sum > DEBIAN/md5sums)
}

version=$(version)
SOURCE_DATE_EPOCH=$(changelog_field Timestamp)
export SOURCE_DATE_EPOCH
install_files
write_control "$version"
dpkg-deb --root-owner-group -Zxz --build "$root" "$folder/ccnode_${version}_$(dpkg --print-architecture).deb"
