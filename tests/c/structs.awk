# The structs that cross the boundary, a line each with their fields in order: those marked #[repr(C)] in Rattle or Rust (-v from=rust), or
# all of a C header (-v from=c). Types and names are laid out as Rust has them, but for a struct's name, which is that of C without ogr_.

function rust_type(t) {
    if (t == "size_t") return "usize"
    if (t == "float") return "f32"
    if (t ~ /^uint[0-9]+_t$/) { gsub(/int|_t/, "", t); return t }
    sub(/^struct ogr_/, "", t)
    return t
}

from == "c" { gsub(/\/\*[^*]*\*\//, "") }
from == "rust" { sub(/\/\/.*/, "") }
from == "c" && /^struct ogr_[a-z_]+ \{/ { sub(/^struct ogr_/, ""); line = $1 " {"; inside = 1; next }
from == "rust" && /^#\[repr\(C\)\]/ { marked = 1; next }
from == "rust" && marked && /^pub struct / { line = snake(bare($3)) " {"; inside = 1; marked = 0; next }
inside && /^\}/ { print line " }"; inside = 0 }
inside && NF {
    field = $0
    gsub(/^[ \t]+|[ \t,;]+$/, "", field)
    if (from == "c") {
        name = field; sub(/.* /, "", name)
        sub(/ [^ ]*$/, "", field)
        line = line " " name ": " rust_type(field)
    } else {
        sub(/^pub /, "", field)
        name = field; sub(/:.*/, "", name)
        sub(/^[^:]*: */, "", field)
        line = line " " name ": " snake(bare(field))
    }
}
