# Sourced by the scripts of bench/. It sets `top`, the root of the repository, `made`, the folder for all that is built, and `built`, the folder
# of the Rust programs, and defines
#   build PROGRAM..                 proves and builds programs of the library; each lands in its crate's folder, in out/
#   build_rust FOLDER               builds the cargo project bench/FOLDER over the crate julian 0.7.1; its programs land in "$built"
#   run PROGRAM [WORDS]             runs an x86-64 program, the library's or a Rust one
#   count PROGRAM [WORDS]           the same with its output thrown away; prints how many instructions the run took
# on an x86-64 machine and on an Arm one alike: the programs are x86-64 programs on both. On Arm `bench/arm-setup` has to have been run.
# Settings: JULIAN_SRC is the folder that holds the crate's src/ (otherwise cargo fetches the crate from its registry); CARGO_VENDOR is a
# folder of crates for cargo to take in place of the registry (otherwise the registry itself).
top=$(cd "$(dirname "${BASH_SOURCE[0]}")/.." && pwd)
made=$top/target/bench
machine=$(uname -m)
triple=x86_64-unknown-linux-gnu
built=$made/cargo/$triple/release
mkdir -p "$made"

# Debian's emulator, with Debian's C library for x86-64 programs.
emulated() { qemu-x86_64 -L /usr/x86_64-linux-gnu "$@"; }

if [ "$machine" = x86_64 ]; then
    run() { "$@"; }
    count() {
        valgrind --tool=callgrind --callgrind-out-file=/dev/null "$@" 2>&1 >/dev/null |
            sed -n 's/.*Collected : \([0-9]*\).*/\1/p'
    }
else
    [ -f "$made/insn.so" ] || {
        echo "on a machine that is not x86-64, run bench/arm-setup first" >&2
        exit 1
    }
    run() { emulated "$@"; }
    count() { emulated -plugin "$made/insn.so" "$@" 2>&1 >/dev/null | sed -n 's/^insns \([0-9]*\)$/\1/p'; }
    export RUSTC=$made/rustc CARGO_TARGET_X86_64_UNKNOWN_LINUX_GNU_LINKER=x86_64-linux-gnu-gcc
fi

# A program is run on empty input once it is built.
build() { # PROGRAM..
    local name
    for name in "$@"; do
        (cd "$top/crates/$name" && rt run </dev/null) >"$made/check.log" 2>&1 || {
            tail -n 3 "$made/check.log"
            exit 1
        }
    done
}

# A copy of the project is built, in target/, so that no lock file and no link to the source lands among the project's files.
build_rust() { # FOLDER
    local settings=()
    rm -rf "${made:?}/$1"
    mkdir -p "$made/$1"
    cp -r "$top/bench/$1/Cargo.toml" "$top/bench/$1/src" "$made/$1/"
    if [ -n "${JULIAN_SRC:-}" ]; then
        mkdir -p "$made/julian"
        ln -sfn "$(cd "$JULIAN_SRC" && pwd)/src" "$made/julian/src"
        printf '[package]\nname = "julian"\nversion = "0.7.1"\nedition = "2021"\n[features]\ndefault = ["std"]\nstd = []\n[dependencies]\nthiserror = "1"\n' >"$made/julian/Cargo.toml"
        settings+=(--config "patch.crates-io.julian.path='$made/julian'")
    fi
    if [ -n "${CARGO_VENDOR:-}" ]; then
        settings+=(--offline --config "source.crates-io.replace-with='vendor'" --config "source.vendor.directory='$CARGO_VENDOR'")
    fi
    (cd "$made/$1" && cargo build --release --target "$triple" --target-dir "$made/cargo" "${settings[@]}") >"$made/cargo.log" 2>&1 || {
        cat "$made/cargo.log"
        exit 1
    }
}
