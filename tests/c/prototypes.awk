# The prototypes that the exported functions of Rattle sources, or of the Rust crate's `exports!`, have in C (-v to=c) or Rust (-v to=rust),
# a line each.
# A slice `x: &[T]` passes as a pointer x and a length x_len, and a struct by value: PllPlan is struct ogr_pll_plan in C (names.awk).

function trim(s) { gsub(/^[ \t]+|[ \t]+$/, "", s); return s }

function c_type(t) {
    if (t == "bool") return "bool"
    if (t == "f32") return "float"
    if (t == "usize") return "size_t"
    if (t ~ /^[iu](8|16|32|64)$/) return (t ~ /^u/ ? "uint" : "int") substr(t, 2) "_t"
    if (t ~ /^[A-Z][A-Za-z0-9]*$/) return "struct ogr_" snake(t)
    return unknown(t)
}

function unknown(t) {
    print FILENAME ": there is no C type for " t > "/dev/stderr"
    bad = 1
    return t
}

function parameter(name, t,    const) {
    if (t !~ /^&/) return to == "c" ? c_type(bare(t)) " " name : name ": " bare(t)
    const = t !~ /^&mut /
    gsub(/^&(mut )?\[|\]$/, "", t)
    t = bare(t)
    if (to == "c") return (const ? "const " : "") c_type(t) " *" name ", size_t " name "_len"
    return name ": *" (const ? "const " : "mut ") t ", " name "_len: usize"
}

function prototype(text,    name, given, parts, n, i, half, all) {
    name = text; sub(/.* fn /, "", name); sub(/\(.*/, "", name)
    given = text; sub(/.*->/, "", given); given = bare(trim(given))
    sub(/^[^(]*\(/, "", text); sub(/\)[^)]*$/, "", text)
    n = split(text, parts, ",")
    for (i = 1; i <= n; i++) {
        if (trim(parts[i]) == "") continue
        half = index(parts[i], ":")
        all = all (all == "" ? "" : ", ") parameter(trim(substr(parts[i], 1, half - 1)), trim(substr(parts[i], half + 1)))
    }
    if (to == "c") print c_type(given) " " name "(" all ")"
    else print "fn " name "(" all ") -> " given
}

# A signature ends where its contract or its body begins, and in Rust at its semicolon.
gathering && /^[ \t]*(ensures|requires|\{)/ { prototype(gathered); gathering = 0 }
/pub extern "C" fn |: fn ogr_/ { gathering = 1; gathered = "" }
gathering { gathered = gathered " " $0 }
gathering && /;$/ { sub(/;$/, "", gathered); prototype(gathered); gathering = 0 }
END { exit bad }
