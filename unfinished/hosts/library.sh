# Sourced from the repository's root: sets `archives`, what a host links with. The library is proved and built by `rt`,
# unless DANA_LIB_DIR names a folder that has a libdana_c.a.
if [ -z "${DANA_LIB_DIR:-}" ]; then
    (cd crates/dana_c && rt lib)
    DANA_LIB_DIR=crates/dana_c/out
fi
kit=$(dirname "$(dirname "$(readlink -f "$(command -v rt)")")")
archives=("$DANA_LIB_DIR/libdana_c.a" "$kit/c/libos_c.a" "$kit/c/liblibc_c.a")
