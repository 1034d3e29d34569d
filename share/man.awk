# Makes the man page of accrun from its long help.
function safe(text) {
    sub(/^ +/, "", text)
    return escaped(text)
}
function escaped(text) {
    gsub(/\\/, "\\e", text)
    gsub(/-/, "\\-", text)
    return text ~ /^[.']/ ? "\\&" text : text
}
NR == 1 { print ".TH ACCRUN 1\n.SH NAME\naccrun \\- " safe(tolower(substr($0, 1, 1)) substr($0, 2)); next }
/^Usage: / { print ".SH SYNOPSIS\n" safe(substr($0, 8)); next }
/^Arguments:|^Options:/ { print ".SH " toupper(substr($1, 1, length($1) - 1)); part = $1; next }
part == "text" { print escaped($0); next }
part == "" || /^ *$/ { next }
/^[^ ]/ { print ".SH DESCRIPTION\n.nf\n" escaped($0); part = "text"; next }
/^          / { print safe($0); next }
{ print ".TP\n.B " safe($0) }
