# shellcheck shell=bash
# What a script has that unpacks Debian's packages into `$folder`, where nothing is installed. The packages
# are those of the lists that `apt-get update` fetched; where it hasn't, the lists are fetched into the folder
# too. To be sourced.

# an unreachable server isn't waited for
apt=(-qq -o APT::Sandbox::User=root -o Acquire::http::Timeout=20 -o Acquire::https::Timeout=20
    -o Acquire::Retries=1)
lists=()

# have_lists: those of the system, or some in the folder
have_lists() {
    if [[ ${#lists[@]} -eq 0 && -z $(apt-cache policy krb5-kdc) ]]; then
        lists=(-o Dir::State::lists="$folder/lists")
        mkdir -p "$folder/lists/partial"
        apt-get update "${apt[@]}" "${lists[@]}"
    fi
}

# unpack NAME PACKAGE..: into a folder of that name, unless these are there already
unpack() {
    local place=$folder/$1
    shift
    if [[ -f $place/unpacked && $(<"$place/unpacked") == "$*" ]]; then
        return
    fi
    rm -rf "$place.new"
    mkdir -p "$place.new/packages"
    have_lists
    (cd "$place.new/packages" && apt-get download "${apt[@]}" "${lists[@]}" "$@")
    local package
    for package in "$place.new/packages"/*.deb; do
        dpkg -x "$package" "$place.new"
    done
    echo "$*" > "$place.new/unpacked"
    rm -rf "$place"
    mv "$place.new" "$place"
}

# begin WORD..: takes the only word, the folder, and makes it
begin() {
    if [[ $# -ne 1 ]]; then
        echo "usage: ${0##*/} FOLDER" >&2
        exit 2
    fi
    mkdir -p "$1"
    folder=$(cd "$1" && pwd)
}
