# Sourced by run: which field of a record has an operand's number, as a table that the tests of the Rust crate read.

fields_table() {
    echo '# Where operands have their numbers: - nowhere, i in imm_wide, d in dispabs, f in first.'
    echo '# A row for each operand 0, in the order of their numbers: its name; its letter were it operand 2; then, for each operand 1 in that'
    echo '# order, the letters of operand 0 and operand 1.'
    echo '# Made by scripts/interface from crates/record/specs/Same.antt: change that, not this.'
    numbered Operand | awk -f "$here/fields.awk" - "$repo/crates/record/specs/Same.antt"
}
