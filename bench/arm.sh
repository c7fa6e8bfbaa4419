# Sourced by bench/run on Arm, behind rust/prepare.sh, which says how x86-64 programs are built and run there: another way to count, and the same
# library for the machine itself.
# It never ran on an Arm machine. On x86-64 it was seen that rt makes the library for Arm; and with an older toolchain that the counting counts,
# by an emulator for Arm that was itself run by Debian's emulator of Arm.

# lines `CASE SIDE INSTRUCTIONS` of the x86-64 program: the emulator logs a line for each instruction; two calls less one, less an empty call
count() {
    all() { $RUN -one-insn-per-tb -d exec,nochain -D /dev/fd/3 "$prog" run "$@" 3>&1 >/dev/null </dev/null | wc -l; }
    one() { echo $(($(all "$1" "$2" 2) - $(all "$1" "$2" 1))); }
    $RUN "$prog" list >$out/order
    empty=$(one - -)
    while read -r case side; do echo "$case $side $(($(one "$case" "$side") - empty))"; done <$out/order
}

# The library for the machine itself, which rt makes of the same crates.
for_arm() {
    (cd crates/millettie && rt lib --target aarch64-unknown-linux-gnu) </dev/null >target/archive.log 2>&1 || { tail -n 20 target/archive.log >&2; return 1; }
    cp crates/millettie/out/libmillettie.a $out/libmillettie.a
}

for_arm
native=$(
    unset RUSTC RUSTFLAGS
    export MILLETTIE_DIR="$PWD/$out" CARGO_BUILD_TARGET=aarch64-unknown-linux-gnu
    build && echo "$CARGO_TARGET_DIR/$CARGO_BUILD_TARGET/release/bench"
)
