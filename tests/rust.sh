#!/bin/bash
# The library for Rust: builds the archive, and runs the tests and the bank of bindings/rust, its search for the archive, clippy and
# rustfmt, with each tool that is there. What cargo writes is outside the repository. Ends with 1 at the first that fails.
cd "$(dirname "$0")/.." || exit 1
cargo --version >/dev/null 2>&1 || { echo "rust: cargo isn't there, not run"; exit 0; }
room=$(mktemp -d) || exit 1
trap 'rm -rf "$room"' EXIT
export CARGO_TARGET_DIR=$room/target
unset MVRLU_LIB_DIR PKG_CONFIG_PATH

fail() {
    echo "rust: $*"
    exit 1
}

# Runs a command of cargo on the package, and keeps what it says.
cargo_on() {
    (cd bindings/rust && cargo "$@") >"$room/log" 2>&1
}

# The same, where it has to pass.
pass() {
    cargo_on "$@" || { cat "$room/log"; fail "cargo $* failed"; }
}

mkdir "$room/lib"
bash tests/library/archive.sh "$room/lib/libmvrlu.a" || fail "the archive was not built"

# Where there is no archive, the build says what to do.
PKG_CONFIG_LIBDIR=$room cargo_on build --offline --locked && fail "it builds without an archive"
grep -q 'MVRLU_LIB_DIR is not set' "$room/log" && grep -q 'Do one of these' "$room/log" || { cat "$room/log"; fail "no word of what to do"; }
MVRLU_LIB_DIR=$room cargo_on build --offline --locked && fail "it builds with a folder without an archive"
grep -q 'there is no libmvrlu.a in it' "$room/log" || { cat "$room/log"; fail "no word of an empty folder"; }

if command -v pkg-config >/dev/null; then
    printf 'libdir=%s\nName: mvrlu\nDescription: objects\nVersion: 1.0\n' "$room/lib" >"$room/mvrlu.pc"
    PKG_CONFIG_PATH=$room pass build --offline --locked
else
    echo "rust: pkg-config isn't there, not run"
fi

export MVRLU_LIB_DIR=$room/lib
pass test --offline --locked
tests=$(awk '/^test result: ok/ { passed += $4 } END { print passed + 0 }' "$room/log")
[ "$tests" -gt 0 ] || { cat "$room/log"; fail "no test ran"; }
pass run --quiet --offline --locked --example bank
[ "$(cat "$room/log")" = 'transfers 100000, each sum 64000' ] || { cat "$room/log"; fail "the bank says something else"; }
for tool in 'clippy --offline --locked --all-targets -- -D warnings' 'fmt --check'; do
    read -ra words <<<"$tool"
    cargo "${words[0]}" --version >/dev/null 2>&1 || { echo "rust: cargo ${words[0]} isn't there, not run"; continue; }
    pass "${words[@]}"
done
echo "rust: $tests tests and the bank ok"
