# The functions that a C header declares, a line each, laid out as prototypes.awk lays them out.

# Comments go first: they name functions too.
/^[ \t]*(#|extern "C")/ { next }
{ text = text " " $0 }

END {
    while (match(text, /\/\*([^*]|\*+[^*\/])*\*+\//)) text = substr(text, 1, RSTART - 1) " " substr(text, RSTART + RLENGTH)
    while (match(text, /\{[^{}]*\}/)) text = substr(text, 1, RSTART - 1) ";" substr(text, RSTART + RLENGTH)
    n = split(text, parts, ";")
    for (i = 1; i <= n; i++) {
        part = parts[i]
        gsub(/[ \t]+/, " ", part)
        gsub(/\( /, "(", part); gsub(/,? \)/, ")", part)
        sub(/^ /, "", part); sub(/ $/, "", part)
        if (part ~ /(^| )ogr_[a-z0-9_]+\(/ && part !~ /^static /) print part
    }
}
