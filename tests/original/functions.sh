# shellcheck shell=bash
# Sourced at the top of the repository: what is compared with the original is compiled beside its files.

# have COMMAND PACKAGE: a command, from its Debian package where it is missing and installing is not turned off (INSTALL=no).
have() {
    command -v "$1" > /dev/null || install "$2"
    command -v "$1" > /dev/null
}
install() {
    [ "${INSTALL:-yes}" = yes ] || return 0
    mkdir -p target
    { timeout 300 apt-get update -qq && timeout 300 apt-get install -y -qq "$1"; } > target/install.log 2>&1 < /dev/null || true
}

smallvec() {
    local package=librust-smallvec-dev
    dpkg -s $package > /dev/null 2>&1 || install $package
    dpkg -L $package 2> /dev/null | grep '/smallvec-[0-9.]*/src/lib.rs$' | head -n 1
}

# lacking ORACLE: says what cannot be had for the comparison; nothing where all can.
lacking() {
    if [ ! -d "$1/src/quadtree" ]; then
        echo "there is no src/quadtree in $1"
    elif ! have rustc rustc; then
        echo 'rustc cannot be had'
    elif ! smallvec > /dev/null; then
        echo 'package librust-smallvec-dev cannot be had'
    fi
}

# beside ORACLE: target/original gets the original's files, none of them edited, with modules.rs and smallvec.
beside() {
    local files=target/original file
    rm -rf $files
    mkdir -p $files
    cp -R "$1/src/." $files/
    cp tests/original/modules.rs $files/
    while read -r file; do
        cmp "$1/src/$file" "$files/$file" || { echo "tests/original: $file was edited"; exit 1; }
    done < <(cd "$1/src" && find . -name '*.rs')
    rustc --edition 2021 -O --crate-type rlib --crate-name smallvec --cap-lints allow -o $files/libsmallvec.rlib "$(smallvec)"
}

# compile FOLDER PROGRAM LIBRARY..: FOLDER/main.rs with the original and static libraries.
compile() {
    local folder=$1 program=$2
    shift 2
    ORIGINAL=$PWD/target/original rustc --edition 2021 -O --cap-lints allow --extern smallvec=target/original/libsmallvec.rlib \
        -L native=target/staticlib "${@/#/-lstatic=}" -o "$program" "$folder/main.rs"
}
