# For the comparison of the archive with the independent implementation. Sourced, with the repository as the folder.
# `cases` writes streams of texts with everything that is due of them; `compared`, over the archive, reads them and tells each difference.
# `taken` does so for the stream of which codes are taken.
cases=build/reference/release/cases
compared=build/tests/compared
taken=build/tests/taken

# over_archive SOURCE PROGRAM: compiles a program over the archive.
over_archive() {
  tools/x86-64 cc -std=c11 -D_DEFAULT_SOURCE -Wall -Wextra -pedantic -Werror -Iinclude -Itests/c -O2 "$1" build/libpistrovelle.a -o "$2"
}

# Builds `cases` and `compared`.
build_compared() {
  mkdir -p build/tests
  command -v cargo >/dev/null || apt-get install -y cargo >/dev/null 2>&1
  tools/x86-64 need &&
    make --no-print-directory -s build/libpistrovelle.a &&
    CARGO_TARGET_DIR=build/reference cargo build --offline --quiet --release --manifest-path tests/reference/Cargo.toml --bin cases &&
    over_archive tests/c/compared.c "$compared"
}

# Builds `taken`, once those are built.
build_taken() { over_archive tests/c/codes_compared.c "$taken"; }

# Compares the stream on standard input.
compare() { tools/x86-64 run "$compared" "$@"; }
compare_taken() { tools/x86-64 run "$taken"; }
