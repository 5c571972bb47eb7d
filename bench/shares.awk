# The instructions that each function takes itself in one dump of callgrind, the most first.
# Usage: awk -f shares.awk out.N
function name_of(text,   id) {
    id = text
    sub(/\).*/, ")", id)
    if (text != id) { sub(/^\([0-9]+\) /, "", text); names[id] = text }
    return id
}
/^fn=/ { current = name_of(substr($0, 4)); next }
/^cfn=/ { name_of(substr($0, 5)); next }
/^calls=/ { skip = 1; next }
/^[0-9+*-]/ { if (skip) skip = 0; else { own[current] += $2; total += $2 } }
END {
    for (id in own) if (own[id] * 200 > total) printf "%10d %5.1f%%  %s\n", own[id], own[id] * 100 / total, names[id] | "sort -nr"
}
