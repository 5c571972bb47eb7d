# Cuts functions of an impl block, with their doc comments, from a published file.
# Usage: awk -v names="a b" -f cut.awk file
# A function begins at a line `    pub fn NAME(` and ends at the next line that is `    }`.
# A name that is not found is an error.

BEGIN {
    count = split(names, list, " ")
    for (i = 1; i <= count; i++) wanted[list[i]] = 1
    kept = ""
}

# Doc comments wait until it is known whether their function stays.
!cutting && /^    \/\/\/ ?/ { kept = kept $0 "\n"; next }

!cutting && /^    pub fn / {
    name = $3
    sub(/[(<].*/, "", name)
    if (name in wanted) {
        delete wanted[name]
        cutting = 1
        kept = ""
        next
    }
}

cutting { if ($0 == "    }") cutting = 0; next }

{ printf "%s", kept; kept = ""; print }

END {
    for (name in wanted) { print "not found: " name > "/dev/stderr"; bad = 1 }
    exit bad
}
