# What compare/run, compare/bench and compare/make-list share; sourced by them, with `root` set to the repository's root.
#
# Finds the Rust's source, takes RemoteMode out of it, and gives `make_library` and `build`.
cd "$root"
APPENDFS_SRC=${APPENDFS_SRC:-$root/../shared/docs/src}
if [ ! -f "$APPENDFS_SRC/src/remote/policy.rs" ]; then
    echo "no src/remote/policy.rs in $APPENDFS_SRC: set APPENDFS_SRC" >&2
    exit 2
fi
APPENDFS_SRC=$(cd "$APPENDFS_SRC" && pwd)
COMPARE_OUT=$root/target/compare
export APPENDFS_SRC COMPARE_OUT
mkdir -p "$COMPARE_OUT"

# RemoteMode, taken unchanged from the Rust's config.rs, but without the derives of serde and clap.
config=$APPENDFS_SRC/src/remote/config.rs
{
    echo '#[derive(Debug, Clone, Copy, PartialEq, Eq, Default)]'
    sed -n '/^pub enum RemoteMode /,/^}/p; /^impl RemoteMode /,/^}/p' "$config"
} > "$COMPARE_OUT/mode.rs.new"
if ! cmp -s "$COMPARE_OUT/mode.rs.new" "$COMPARE_OUT/mode.rs"; then
    mv "$COMPARE_OUT/mode.rs.new" "$COMPARE_OUT/mode.rs"
fi

# What a program is linked with; make_library adds the port's library.
library=()
link=()

# make_library: the port's library, where it is missing or older than the port. `build` then links it.
make_library() {
    library=(target/staticlib/libprune.a)
    link=(-L native=target/staticlib -l static=prune)
    tools/staticlib >&2
}

# build NAME MAIN FLAG..: the program target/compare/NAME from compare/src/MAIN, with these flags for rustc besides the usual ones,
# where it is missing, older than what it is made of, or made otherwise. Sets `program`.
build() {
    program=$COMPARE_OUT/$1
    local made_from=$program.made-from
    local made="$APPENDFS_SRC ${*:3}"
    local newer
    if [ -x "$program" ] && [ "$(cat "$made_from" 2>/dev/null)" = "$made" ]; then
        newer=$(find compare/src "${library[@]}" "$COMPARE_OUT/mode.rs" "$APPENDFS_SRC/src/remote/policy.rs" \
            -type f -newer "$program" -print -quit)
        if [ -z "$newer" ]; then
            return
        fi
    fi
    rustc --edition 2021 -C opt-level=3 -D warnings "${@:3}" -o "$program" "compare/src/$2" "${link[@]}"
    echo "$made" > "$made_from"
}
