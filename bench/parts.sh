# Parts that the benchmarks share. A script sets `here` to its own folder and then sources this one.
top=$(cd "$here/../.." && pwd)
work=$(mktemp -d)
trap 'rm -rf "$work"' EXIT

# below CRATE..: these crates and all crates of the project that they stand on, by crates.txt, each once
below() {
    for crate in "$@"; do
        case " $taken " in *" $crate "*) continue ;; esac
        taken="$taken $crate"
        for next in $(sed -n "s/^$crate\\( [^:]*\\)*://p" "$top/crates.txt"); do
            if [ -d "$top/crates/$next" ]; then below "$next"; fi
        done
    done
}

# take_crates CRATE..: copies of these crates and of all below them in the temporary folder, each with its line of crates.txt
take_crates() {
    taken=
    below "$@"
    for crate in $taken; do
        mkdir -p "$work/crates/$crate"
        for part in src specs proofs data out; do
            if [ -e "$top/crates/$crate/$part" ]; then cp -r "$top/crates/$crate/$part" "$work/crates/$crate/"; fi
        done
        grep "^$crate[ :]" "$top/crates.txt" >> "$work/crates.txt"
    done
    cp "$top/HANDLES" "$work/HANDLES"
}

# new_program NAME CRATE..: a program over these crates, in the folder $program
new_program() {
    program=$work/crates/$1
    mkdir -p "$program/src"
    name=$1
    shift
    echo "$name: $*" >> "$work/crates.txt"
}

# build_program: proves and builds it, or prints why not and ends
build_program() {
    if ! (cd "$program" && rt run) > "$work/log" 2>&1; then
        cat "$work/log"
        exit 1
    fi
}

# build_peer SOURCE: the C++ program to compare with
build_peer() {
    g++ -O2 -std=c++17 -I "$top/bench" -o "$work/peer" "$1"
}

# put_sizes CALL SIZE..: in place of the line SIZES of the program, one line a size, where CALL has %d for it
put_sizes() {
    call=$1
    shift
    for n in "$@"; do printf "    $call\n" "$n"; done > "$work/sizes"
    sed -i -e "/^SIZES\$/{r $work/sizes
d}" "$program/src/main.rt"
}

# resident_function: `resident`, the bytes of the program that lie in memory
resident_function() {
    cat <<'RT'

fn resident(rt: &HostRuntime) -> io::Result<u64> {
    let text = fs::read_to_string(rt, "/proc/self/statm")?;
    let pages = text.split(' ').nth(1).and_then(|word| word.parse::<u64>().ok()).unwrap_or(0);
    Ok(pages.wrapping_mul(4096))
}
RT
}
