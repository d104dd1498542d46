#!/usr/bin/env bash
# Installs the library into empty folders and uses it as a host's maker does: the examples built by pkg-config and by CMake against what
# was installed, the manual pages of all calls, the version in each place, and what must be refused. Prints a line for each; exits 1
# where one fails. tests/run.sh, which stands before it in the gate, has proved the library and written the archive.
#     tests/install.sh
set -euo pipefail
cd "$(dirname "$(readlink -f "${BASH_SOURCE[0]}")")/.."
root="$PWD"
. tests/have.sh
. tests/saying.sh
have gcc gcc
have make make
have pkg-config pkg-config
have cmake cmake
have groff-base groff
[ -f target/staticlib/libuss_c.a ] || lib/prove archive > /dev/null
room="$(mktemp -d)"
trap 'rm -rf "$room"' EXIT
prefix="$room/prefix"
strict=(-std=c99 -Wall -Wextra -Werror -pedantic)
hosts=(slave_host master_host screen_host)

# rt_says STATUS: puts an `rt` that notes what it is asked and ends with that status before the one of the machine
rt_says() {
    mkdir -p "$room/bin"
    printf '#!/bin/sh\necho "$*" >> "%s"\nexit %s\n' "$room/asked" "$1" > "$room/bin/rt"
    chmod +x "$room/bin/rt"
}

# installed ARGUMENT..: runs ./install, from another folder, with that rt
installed() {
    (cd "$room" && PATH="$room/bin:$PATH" "$root/install" "$@")
}

# it asks rt to prove the library, and names each file that it has written
into_prefix() {
    rt_says 0
    installed "$prefix" > "$room/named" 2> /dev/null
    [ "$(cat "$room/asked")" = 'lib --cpu x86-64' ] && diff <(sort "$room/named") <(find "$prefix" -type f | sort) \
        && cmp target/staticlib/libuss_c.a "$prefix/lib/libuss_c.a" && diff -r include "$prefix/include"
}

# under DESTDIR stands the same, for the prefix as it was said
staged() {
    DESTDIR="$room/stage" installed /usr/local > /dev/null 2>&1
    grep -qx 'prefix=/usr/local' "$room/stage/usr/local/lib/pkgconfig/uss.pc" \
        && sed -i "s|^prefix=.*|prefix=$prefix|" "$room/stage/usr/local/lib/pkgconfig/uss.pc" \
        && diff -r "$prefix" "$room/stage/usr/local"
}

# status NUMBER ARGUMENT..: ./install ends with that status, says one line, and writes nothing
status() {
    local wanted="$1" got=0
    shift
    installed "$@" > "$room/out" 2> "$room/said" || got=$?
    [ "$got" = "$wanted" ] && [ ! -s "$room/out" ] && [ ! -e "$room/none" ] && grep -q '^install: ' "$room/said" && return
    echo "install $*: status $got, $wanted expected"
    return 1
}

# nonsense is refused with 2, what is not proved with 1
refusals() {
    touch "$room/file"
    rt_says 0
    status 2 && status 2 '' && status 2 "$room/none" more && status 2 --none && status 2 none && status 2 "$room/none none" \
        && status 2 / && status 2 "$room/file" && DESTDIR=none status 2 "$room/none" || return 1
    rt_says 1
    status 1 "$room/none"
}

# where there is no rt the archive is taken as it stands, and that is said; where there is no archive either it ends with 1
without_rt() {
    local tool archive=target/staticlib/libuss_c.a bare="$room/bare" got=0
    mkdir "$bare"
    for tool in bash basename dirname install mktemp readlink rm sed; do ln -s "$(type -P "$tool")" "$bare"; done
    ln -s "$(python3 -c 'import sys; print(sys.executable)')" "$bare/python3"
    PATH="$bare" ./install "$room/without" > "$room/named" 2> "$room/said" && cmp "$archive" "$room/without/lib/libuss_c.a" \
        && grep -q '^install: rt is missing: the archive is taken as it stands' "$room/said" || return 1
    mv "$archive" "$room/kept"
    PATH="$bare" ./install "$room/none" > "$room/named" 2> "$room/said" || got=$?
    mv "$room/kept" "$archive"
    [ "$got" = 1 ] && [ ! -e "$room/none" ] && grep -q '^install: rt is missing, and there is no archive yet' "$room/said"
}

help() {
    installed --help > "$room/said" && grep -q '^usage: ./install PREFIX' "$room/said"
}

# same PROGRAM NAME: what the program prints is what is stored of that example
same() {
    "$1" | diff "$root/examples/expected/$2.txt" -
}

# the examples by pkg-config, where no other uss.h can be found
by_pkg_config() {
    local name flags
    flags="$(PKG_CONFIG_PATH="$prefix/lib/pkgconfig" pkg-config --cflags --libs uss)"
    for name in "${hosts[@]}"; do
        cp "examples/$name.c" "$room"
        # shellcheck disable=SC2086
        (cd "$room" && gcc "${strict[@]}" -o "$name" "$name.c" $flags) && same "$room/$name" "$name" || return 1
    done
}

# the examples by CMake, with the installed folder moved to another place
by_cmake() {
    local name
    mkdir "$room/project"
    cat > "$room/project/CMakeLists.txt" << 'END'
cmake_minimum_required(VERSION 3.10)
project(hosts C)
find_package(uss REQUIRED)
file(WRITE ${CMAKE_BINARY_DIR}/version "${uss_VERSION}\n")
foreach(host IN LISTS HOSTS)
    add_executable(${host} ${host}.c)
    target_link_libraries(${host} PRIVATE uss::uss)
endforeach()
END
    mkdir "$room/moved"
    cp -R "$prefix" "$room/moved/uss"
    for name in "${hosts[@]}"; do cp "examples/$name.c" "$room/project"; done
    cmake -S "$room/project" -B "$room/build" -DCMAKE_PREFIX_PATH="$room/moved/uss" \
        "-DHOSTS=$(IFS=';'; echo "${hosts[*]}")" > "$room/cmake.txt" 2>&1 \
        && cmake --build "$room/build" > "$room/cmake.txt" 2>&1 || { cat "$room/cmake.txt"; return 1; }
    for name in "${hosts[@]}"; do same "$room/build/$name" "$name" || return 1; done
}

# suits VERSION: what the installed version file says of a wish for that version, on this machine
suits() {
    local parts
    IFS=. read -ra parts <<< "$1"
    cat > "$room/suits.cmake" << END
set(PACKAGE_FIND_VERSION $1)
set(PACKAGE_FIND_VERSION_COUNT ${#parts[@]})
set(PACKAGE_FIND_VERSION_MAJOR ${parts[0]})
set(PACKAGE_FIND_VERSION_MINOR ${parts[1]:-0})
set(CMAKE_SYSTEM_PROCESSOR ${2:-x86_64})
include($prefix/lib/cmake/uss/uss-config-version.cmake)
message("\${PACKAGE_VERSION_COMPATIBLE} \${PACKAGE_VERSION_EXACT} \${PACKAGE_VERSION_UNSUITABLE}")
END
    cmake -P "$room/suits.cmake" 2>&1 | sed 's/ $//'
}

# CMake takes this version and none that asks for more, nor one for another processor
wishes() {
    local major minor patch
    IFS=. read -r major minor patch <<< "$version"
    [ "$(suits "$version")" = 'TRUE TRUE' ] && [ "$(suits "$major.$minor")" = "TRUE $([ "$patch" = 0 ] && echo TRUE || echo FALSE)" ] \
        && [ "$(suits "$major.$minor.$((patch + 1))")" = 'FALSE FALSE' ] && [ "$(suits "$major.$((minor + 1))")" = 'FALSE FALSE' ] \
        && [ "$(suits "$((major + 1)).0")" = 'FALSE FALSE' ] && [ "$(suits "$version" armv7)" = 'FALSE FALSE TRUE' ]
}

# the version is the same in header (as text and as numbers), uss.pc, CMake, manual pages and CHANGELOG.md
versions() {
    printf '#include <stdio.h>\n#include <uss.h>\nint main(void) { printf("%%s\\n%%d.%%d.%%d\\n", USS_VERSION, %s); return 0; }\n' \
        'USS_VERSION_MAJOR, USS_VERSION_MINOR, USS_VERSION_PATCH' > "$room/version.c"
    gcc "${strict[@]}" -I"$prefix/include" -o "$room/version" "$room/version.c" || return 1
    {
        "$room/version"
        PKG_CONFIG_PATH="$prefix/lib/pkgconfig" pkg-config --modversion uss
        cat "$room/build/version"
        sed -nE 's/^\.TH .* "uss ([^"]+)" .*/\1/p' "$prefix"/share/man/man?/*
        sed -nE 's/^## ([0-9.]+) .*/\1/p' CHANGELOG.md | head -n 1
    } > "$room/versions"
    [ "$(wc -l < "$room/versions")" = $((5 + $(find "$prefix/share/man" -type f | wc -l))) ] \
        && [ "$(sort -u "$room/versions")" = "$version" ] || { sort "$room/versions" | uniq -c; return 1; }
}

# each call that the header declares has its page, and there is no other
pages() {
    diff <(gcc -fpreprocessed -E -P include/uss.h | grep -oE 'uss_[a-z_0-9]+\(' | tr -d '(' | sort) \
        <(find "$prefix/share/man/man3" -name '*.3' -exec basename {} .3 \; | sort) && [ -f "$prefix/share/man/man7/uss.7" ]
}

# groff, and mandoc where it is there, have nothing to say of the pages
well_formed() {
    local page
    for page in "$prefix"/share/man/man?/*; do
        groff -man -ww -z -Tascii "$page" || echo "groff refuses $page"
        if command -v mandoc > /dev/null; then mandoc -Tlint "$page" || true; fi
    done > "$room/warnings" 2>&1
    [ ! -s "$room/warnings" ] || { cat "$room/warnings"; return 1; }
}

# changed EXPRESSION: makes the pages of a header that sed has changed
changed() {
    rm -rf "$room/copy"
    mkdir -p "$room/copy/ports"
    cp -R CHANGELOG.md include packaging "$room/copy"
    cp -R ports/port "$room/copy/ports"
    sed -i -E "$1" "$room/copy/include/uss.h"
    python3 -B "$room/copy/packaging/manual.py" "$room/copy/man" 2> "$room/said"
}

# a new call gets its page by its comment; without one, or with a version that is not told twice alike, no page is made
from_comments() {
    local new='uint8_t uss_sum(const uint8_t *bytes, size_t len);'
    changed "s|^uint8_t uss_bcc.*|&\n\n/* The sum of all bytes. */\n$new|" && grep -qx 'uss_sum \\- the sum of all bytes' "$room/copy/man/man3/uss_sum.3" \
        && ! changed "s|^uint8_t uss_bcc.*|&\n\n$new|" && grep -q 'uss_sum has no comment' "$room/said" && [ ! -e "$room/copy/man" ] \
        && ! changed 's|^(#define USS_VERSION_PATCH).*|\1 99|' && grep -q 'USS_VERSION' "$room/said" && [ ! -e "$room/copy/man" ]
}

version="$(sed -nE 's/^#define USS_VERSION "(.*)"$/\1/p' include/uss.h)"
try './install PREFIX' into_prefix
try './install with DESTDIR' staged
try './install refuses' refusals
try './install without rt' without_rt
try './install --help' help
try 'examples by pkg-config' by_pkg_config
try 'examples by CMake' by_cmake
try 'versions that CMake takes' wishes
try "version $version in each place" versions
try 'a manual page for each call' pages
try 'manual pages well formed' well_formed
try 'manual pages follow the comments' from_comments
exit "$failed"
