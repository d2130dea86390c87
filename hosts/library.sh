# Sourced by the scripts here: settles IDL_LIBRARY, and fails if that library lacks an entry that c/idl.h declares.

IDL_LIBRARY=$(realpath -m "${IDL_LIBRARY:-../crates/idl/out/libidl.a}")
export IDL_LIBRARY

if [ ! -f "$IDL_LIBRARY" ]; then
    echo "$IDL_LIBRARY: no such library; rt lib in crates/idl builds crates/idl/out/libidl.a" >&2
    exit 1
fi
for entry in idl_read_tokens idl_spelling idl_read_tree idl_read; do
    if ! nm "$IDL_LIBRARY" | grep " T $entry\$" >/dev/null; then
        echo "$IDL_LIBRARY: the library has no $entry" >&2
        exit 1
    fi
done
