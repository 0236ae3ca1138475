# help.txt as lines of C (way=c), as a man page (way=man) or as words for completion (way=words).
# A line "@ VERB WORDS" starts a verb; what follows up to the next empty line says what it does.
function quoted(line) { gsub(/\\/, "\\\\", line); gsub(/"/, "\\\"", line); return "    \"" line "\\n\"," }
function roff(line) { gsub(/\\/, "\\e", line); gsub(/-/, "\\-", line); if (line ~ /^[.']/) line = "\\&" line; return line }
BEGIN {
    if (way == "c") print "/* made by tool/build from tool/help.txt */\nstatic const char *const HELP[] = {"
}
END { if (way == "c") print "};" }
way == "words" { if ($1 == "@") print $2; next }
way == "c" {
    if ($1 == "@") { print quoted("  take-ledger" substr($0, 2)); inside = 1 }
    else { if ($0 == "") inside = 0; print quoted(inside ? "      " $0 : $0) }
    next
}
NR == 1 {
    print ".TH TAKE\\-LEDGER 1 \"\" \"take\\-ledger " version "\" \"User Commands\""
    print ".SH NAME\n" roff($0) "\n.SH SYNOPSIS\n.B take\\-ledger\n.I VERB\n[\\fIOPTION\\fR ..] \\fIFILE\\fR ..\n.SH DESCRIPTION"
    next
}
/^usage:/ { next }
$1 == "@" { if (!verbs++) print ".SH VERBS"; print ".TP\n.B " roff(substr($0, 3)); inside = 1; next }
/^options:/ { print ".SH OPTIONS"; next }
/^  --/ { print ".TP\n.B " roff(substr($0, 3, 16)) "\n" roff(substr($0, 20)); next }
/^A file that is there/ { print ".SH FILES" }
/^exit status:/ { print ".SH EXIT STATUS"; sub(/^exit status: /, "") }
/^$/ { if (inside) inside = 0; else if (NR > 3 && !verbs) print ".PP"; next }
{ print roff($0) }
