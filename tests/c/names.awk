# For prototypes.awk and structs.awk: how a type's name in Rattle or Rust becomes one in C.

# BaudDivisors as baud_divisors.
function snake(t,    out, i, c) {
    for (i = 1; i <= length(t); i++) {
        c = substr(t, i, 1)
        out = out (c ~ /[A-Z]/ && i > 1 ? "_" : "") tolower(c)
    }
    return out
}

# A type without the crate that it comes from. Those of the PLL sequence and of a trace are named after it outside of its crates.
function bare(t) {
    sub(/.*::/, "", t)
    if (t ~ /^(Plan|Run|Step|Started|Ran)$/) return "Pll" t
    return t ~ /^(Channel|Lead|Fed)$/ ? "Trace" t : t
}
