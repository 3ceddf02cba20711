# Sourced by run: the names and the declarations of the Rust crate.

rust_names() {
    echo '// The names that instructions are made of, and their numbers in the library.'
    echo '// Made by scripts/interface from crates/record and oracle/driver.rs: change those, not this.'
    echo
    rust_opcodes
    echo
    numbered Size | rust_enum Size 1 'The size that an opcode carries.'
    echo
    numbered Width | rust_enum Width 0 'The width that decoding starts with, by the first byte.'
    echo
    numbered Operand | rust_enum OperandSpec 0 'The forms of operands, spelled as in yaxpeax-m16c.'
    echo
    numbered_refusals | rust_enum Refusal 1 'Why something was refused, numbered as in document 01.'
    echo
    numbered_fields | rust_indices
}

rust_attributes='#[allow(non_camel_case_types, clippy::upper_case_acronyms)]\n#[derive(Debug, Clone, Copy, PartialEq, Eq, Hash)]'

# An enum of lines "NUMBER NAME" from a least number on, with the functions to and from numbers.
rust_enum() {
    awk -v enum="$1" -v least="$2" -v comment="$3" -v attributes="$rust_attributes" '
        $1 >= least {
            if (NF > 2) { text = $0; sub(/^[^ ]+ [^ ]+ /, "", text); variants = variants "    /// " toupper(substr(text, 1, 1)) substr(text, 2) ".\n" }
            variants = variants "    " $2 " = " $1 ",\n"
            names = names "            " enum "::" $2 " => \"" $2 "\",\n"
            numbers = numbers "            " $1 " => " enum "::" $2 ",\n"
        }
        END {
            printf "/// %s\n%s\npub enum %s {\n%s}\n\nimpl %s {\n", comment, attributes, enum, variants, enum
            print "    /// The name as it is spelled here."
            printf "    pub const fn name(self) -> &\047static str {\n        match self {\n%s        }\n    }\n\n", names
            print "    /// Its number in the library."
            print "    pub const fn number(self) -> u32 {\n        self as u32\n    }\n"
            print "    /// What has a number in the library; none if nothing has."
            print "    pub const fn from_number(number: u32) -> Option<Self> {\n        Some(match number {"
            printf "%s            _ => return None,\n        })\n    }\n}\n", numbers
        }'
}

rust_opcodes() {
    { sized_opcodes | sed 's/^/sized /'; numbered Opcode; } | awk -v attributes="$rust_attributes" '
        $1 == "sized" { sized[$2]; next }
        {
            carries = $2 in sized
            variants = variants "    " $2 (carries ? "(Size)" : "") ",\n"
            names = names "            Opcode::" $2 (carries ? "(_)" : "") " => \"" $2 "\",\n"
            numbers = numbers "            Opcode::" $2 (carries ? "(_)" : "") " => " $1 ",\n"
            opcodes = opcodes (carries ? "            (" $1 ", Some(size)) => Opcode::" $2 "(size),\n" : "            (" $1 ", None) => Opcode::" $2 ",\n")
            if (carries) sizes = sizes (sizes ? "\n            | " : "") "Opcode::" $2 "(size)"
        }
        END {
            print "/// Opcodes, spelled as in yaxpeax-m16c; those that carry a size there carry it here."
            printf "%s\npub enum Opcode {\n%s}\n\nimpl Opcode {\n", attributes, variants
            print "    /// The name as it is spelled here, without the size."
            printf "    pub const fn name(self) -> &\047static str {\n        match self {\n%s        }\n    }\n\n", names
            print "    /// The size that the opcode carries."
            printf "    pub const fn size(self) -> Option<Size> {\n        match self {\n            %s => Some(size),\n            _ => None,\n        }\n    }\n\n", sizes
            print "    /// Its number in the library."
            printf "    pub const fn number(self) -> u32 {\n        match self {\n%s        }\n    }\n\n", numbers
            print "    /// What has a number in the library, with the size that it carries; none if nothing has."
            print "    pub const fn from_number(number: u32, size: Option<Size>) -> Option<Self> {\n        Some(match (number, size) {"
            printf "%s            _ => return None,\n        })\n    }\n}\n", opcodes
        }'
}

rust_indices() {
    awk '
        BEGIN { print "/// The numbers of a record, by their index.\npub(crate) mod index {" }
        { printf "    pub const %s: usize = %d;\n", toupper($2), $1 }
        END { printf "    pub const NUMBERS: usize = %d;\n}\n", NR }'
}

rust_lengths() {
    numbered_lengths | awk '{
        text = $0; sub(/^[^ ]+ [^ ]+ /, "", text)
        printf "\n/// %s.\npub const %s: usize = %d;\n", toupper(substr(text, 1, 1)) substr(text, 2), toupper($2), $1
    }'
}

# The crate's Cargo.toml with the version of the project.
rust_manifest() {
    sed "s/^version = .*/version = \"$(version)\"/" "$repo/bindings/rust/Cargo.toml"
}

rust_functions() {
    echo '// The functions as C has them: a slice is a pointer and a length in elements, a number to be written a pointer.'
    echo '// Made by scripts/interface from the crates of the functions: change those, not this.'
    rust_lengths
    echo
    functions | awk '
        function declared(name, type) {
            if (type ~ /^&.*\[/) {
                pointer = type ~ /^&mut/ ? "*mut " : "*const "
                gsub(/.*\[|\]/, "", type)
                return name ": " pointer type ", " name "_length: usize"
            }
            return name ": " (sub(/^&mut /, "", type) ? "*mut " : "") type
        }
        function alias(name,  part, count, k, text) {
            sub(/^m16c_/, "", name)
            count = split(name, part, "_")
            for (k = 1; k <= count; k++) text = text toupper(substr(part[k], 1, 1)) substr(part[k], 2)
            return text
        }
        /^\/\// { comments = comments "    /" $0 "\n"; next }
        {
            count = split($0, part, "; "); split(part[1], head, " "); list = ""
            for (k = 2; k <= count; k++) {
                split(part[k], of, ": ")
                list = list "\n    " declared(of[1], of[2]) ","
            }
            types = types "\npub type " alias(head[2]) " = unsafe extern \"C\" fn(" list "\n) -> " head[3] ";\n"
            gsub(/\n/, "\n    ", list)
            block = block (block ? "\n" : "") comments "    pub fn " head[2] "(" list "\n    ) -> " head[3] ";\n"
            comments = ""
        }
        END { printf "extern \"C\" {\n%s}\n\n// The types of the functions, for programs that pass them on.\n%s", block, types }'
}
