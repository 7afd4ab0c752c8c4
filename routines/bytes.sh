# What makes bytes of routines, for scripts that stand at the root and read this file with `. routines/bytes.sh`. The program `reader` must be built.

# the names of the shipped routines, one a line
routines() { for file in routines/*.txt; do basename "$file" .txt; done; }

# digits ROUTINE: the hexadecimal digits of its image
digits() { target/bin/reader <"routines/$1.txt" | hex; }

# hex: the hexadecimal digits of standard input
hex() { xxd -p | tr -d '\n'; }

# all DIGITS: the set of all 2^F settings of an image; F, the number of options, is its third digit
all() {
    options=$(printf %s "$1" | cut -c3)
    printf '0x%x\n' $(((2 << ((1 << 0x${options:-0}) - 1)) - 1))
}

# input SET|SETTING BUDGET DIGITS: what the programs report and hall read, 8 bytes and 4 for the budget, most significant first, then the image
input() { printf '%016x%08x%s' "$1" "$2" "$3" | xxd -r -p; }
