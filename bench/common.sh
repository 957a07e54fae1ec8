# What the scripts of this folder share: the built program, a folder for what they make, and packages.

program=$(dirname "$(readlink -f "$0")")/../crates/colis_checker/out/colis_checker
[ -x "$program" ] || { echo "bench: build the program first: ./colis check examples/web-data" >&2; exit 1; }
folder=$(mktemp -d) || exit 1
trap 'rm -rf "$folder"' EXIT

# package NAME: a package that places nothing, whose postinst is what comes on standard input.
package() {
    mkdir -p "$folder/$1"
    printf 'Package: %s\nVersion: 1\n' "$1" >"$folder/$1/control"
    echo '/.' >"$folder/$1/list"
    cat >"$folder/$1/postinst"
}

# install NAME: reports the package's installation into the file `report`, its line into `line`. Prints its status, its
# outcomes, the bytes of the report, the milliseconds, and the most memory in KiB where /usr/bin/time is there.
install() {
    timed=
    [ ! -x /usr/bin/time ] || timed="/usr/bin/time -f %M -o $folder/memory"
    begin=$(date +%s%N)
    $timed "$program" check "$folder/$1" --scenario install >"$folder/report" 2>"$folder/line"
    status=$?
    end=$(date +%s%N)
    took=$(((end - begin) / 1000000))
    printf '%s: status %d, %d outcomes, %d bytes, %d ms, %s KiB\n' "$1" "$status" \
        "$(grep -c '^outcome ' "$folder/report")" "$(wc -c <"$folder/report")" "$took" \
        "$(tail -n 1 "$folder/memory" 2>/dev/null)"
}
