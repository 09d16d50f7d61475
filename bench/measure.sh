# Sourced by the scripts here: what a command takes, and the programs that cargo builds of rust/.

# How long this command runs.
nanoseconds() {
    local start end
    start=$(date +%s%N)
    "$@" >/dev/null
    end=$(date +%s%N)
    echo $((end - start))
}

# The lesser of two, where none so far is 0.
least() {
    if [ "$1" -eq 0 ] || [ "$2" -lt "$1" ]; then echo "$2"; else echo "$1"; fi
}

# The instructions that this command takes.
instructions() {
    valgrind --tool=callgrind --callgrind-out-file=/dev/null "$@" 2>&1 >/dev/null | sed -n 's/^.*Collected : //p'
}

# Builds one of the programs of rust/, and says where it is.
built_by_cargo() {
    "$top/tools/cargo" build --quiet --release --package "$1" >&2
    echo "${CARGO_TARGET_DIR:-$top/out/rust}/release/$1"
}
