# The tables of docs/SPEED.md. Usage: awk -v counts=FOLDER -f table.awk FOLDER/names
# Line i of `names` says which job, entry and writer call i of `measured` was; FOLDER/out.i says its instructions.

BEGIN { FS = "\t" }

function instructions(number,   file, line, found) {
    file = counts "/out." number
    while ((getline line < file) > 0) if (line ~ /^totals: /) found = substr(line, 9)
    close(file)
    if (found == "") { print "no count in " file > "/dev/stderr"; exit 1 }
    return found
}

# A number with commas.
function commas(n,   text) {
    text = ""
    n = sprintf("%d", n)
    while (length(n) > 3) { text = "," substr(n, length(n) - 2) text; n = substr(n, 1, length(n) - 3) }
    return n text
}

function ratio(a, b,   r) {
    if (a == "" || b == "") return "-"
    r = a / b
    return sprintf(r < 1 ? "%.2f" : r < 10 ? "%.1f" : "%.0f", r)
}

function of(job, entry, writer) { return count[job, entry, writer] }

function shown(job, entry, writer,   n) {
    n = of(job, entry, writer)
    return n == "" ? "-" : commas(n)
}

# The instructions of a search for each frame; below 1,000 with one digit behind the point.
function each(day, writer,   n) {
    n = of(day, "search", writer)
    if (n == "") return "-"
    n /= frames[day]
    return n < 1000 ? sprintf("%.1f", n) : commas(n)
}

# What a call of nothing costs is taken off the others.
NR == 1 { nothing = instructions(1); next }

# Of a search the fourth column is the number of frames.
$2 == "search" {
    count[$1, $2, $3] = instructions(NR) - nothing
    if (!($1 in frames)) days[++day_count] = $1
    frames[$1] = $4
    next
}

{
    count[$1, $2, $3] = instructions(NR) - nothing
    if (!($1 in seen)) { seen[$1]; jobs[++job_count] = $1 }
    if (!($2 in seen)) { seen[$2]; entries[++entry_count] = $2 }
}

END {
    print "Published to ours, the published code from its own trees:\n"
    print "| job type | lower | write_shape | reconstruct |"
    print "|---|--:|--:|--:|"
    for (j = 1; j <= job_count; j++) {
        row = "| " jobs[j] " |"
        for (e = 1; e <= 3; e++) row = row " " ratio(of(jobs[j], entries[e], "published"), of(jobs[j], entries[e], "ours")) " |"
        print row
    }
    print "\nOurs to plain:\n"
    print "| job type | lower | write_shape | reconstruct | write_frame | read_frame | part_read | part_edit | room | shape_records |"
    print "|---|--:|--:|--:|--:|--:|--:|--:|--:|--:|"
    for (j = 1; j <= job_count; j++) {
        row = "| " jobs[j] " |"
        for (e = 1; e <= entry_count; e++) row = row " " ratio(of(jobs[j], entries[e], "ours"), of(jobs[j], entries[e], "plain")) " |"
        print row
    }
    for (e = 1; e <= entry_count; e++) {
        entry = entries[e]
        print "\n`" entry "`, instructions a call:\n"
        if (e <= 3) {
            print "| job type | ours | published | published, files | plain | second | published / ours | files / ours | ours / plain | ours / second |"
            print "|---|--:|--:|--:|--:|--:|--:|--:|--:|--:|"
        } else {
            print "| job type | ours | plain | second | ours / plain | ours / second |"
            print "|---|--:|--:|--:|--:|--:|"
        }
        for (j = 1; j <= job_count; j++) {
            job = jobs[j]
            ours = of(job, entry, "ours")
            row = "| " job " | " shown(job, entry, "ours") " |"
            if (e <= 3) row = row " " shown(job, entry, "published") " | " shown(job, entry, "published-files") " |"
            row = row " " shown(job, entry, "plain") " | " shown(job, entry, "second") " |"
            if (e <= 3) row = row " " ratio(of(job, entry, "published"), ours) " | " ratio(of(job, entry, "published-files"), ours) " |"
            row = row " " ratio(ours, of(job, entry, "plain")) " | " ratio(ours, of(job, entry, "second")) " |"
            print row
        }
    }
    print "\n`search`, instructions a frame:\n"
    print "| sought | frames | ours | loop | part_read | plain | second | ours / loop | ours / part_read | ours / plain | ours / second |"
    print "|---|--:|--:|--:|--:|--:|--:|--:|--:|--:|--:|"
    for (d = 1; d <= day_count; d++) {
        day = days[d]
        ours = of(day, "search", "ours")
        row = "| " day " | " commas(frames[day]) " | " each(day, "ours") " | " each(day, "loop") " | " each(day, "part_read")
        row = row " | " each(day, "plain") " | " each(day, "second") " | " ratio(ours, of(day, "search", "loop"))
        row = row " | " ratio(ours, of(day, "search", "part_read")) " | " ratio(ours, of(day, "search", "plain"))
        print row " | " ratio(ours, of(day, "search", "second")) " |"
    }
}
