# For scripts of the differential test: sourced at the repository's root. Builds the library, the program rules_case and "$work/differential".
. tests/library.bash
find_program rules_case
rustc --edition 2021 -O tests/differential/main.rs -L "$(dirname "$archive")" -l static=rights_c -o "$work/differential"
