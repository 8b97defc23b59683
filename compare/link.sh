# Sourced at the project's root by compare/run and bench/run: finds the product's archive and the Rust, and sets `flags` for rustc.
#
# $oracle is the folder that builds the Rust's own text by its build.sh; it may be missing. Cfg `later` says that it is that of the later requests,
# which can be asked for names that begin with "#". LOOKUP_LIBRARY names another archive than that of `tools/staticlib lookup`.
made=target/compare
mkdir -p "$made"

library=${LOOKUP_LIBRARY:-target/staticlib/liblookup.a}
if [ ! -f "$library" ]; then tools/staticlib lookup >&2; fi
flags="--edition 2024 -C opt-level=3 --check-cfg cfg(rust) --check-cfg cfg(later) -C link-arg=$library"

if [ -f "$oracle/build.sh" ]; then
    rust=$made/$(basename "$oracle")
    if [ ! -d "$rust" ] || [ "$oracle/oracle.rs" -nt "$rust" ]; then
        program=$(sh "$oracle/build.sh" | sed -n 's/^built //p')
        rm -rf "$rust"
        cp -r "$(dirname "$program")/lib" "$rust"
        touch "$rust"
    fi
    flags="$flags --cfg rust -L $rust"
    if grep -q 'fn noted' "$oracle/modules/file_system.rs"; then flags="$flags --cfg later"; fi
    for crate in oxc_plain oxc_logged rustc_hash; do
        flags="$flags --extern $crate=$rust/lib$crate.rlib"
    done
fi
