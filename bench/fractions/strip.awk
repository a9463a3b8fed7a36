# Takes clauses, ghost items and tactics out of Rattle code, which leaves Rust. The `;` at the end of
# a trait's last clause stays, since it ends the method; a ghost item's doc comment goes with it.
function depth_of(line,   opened, closed, copy) {
    copy = line; opened = gsub(/[{]/, "", copy)
    copy = line; closed = gsub(/[}]/, "", copy)
    return opened - closed
}
function is_done(line) {
    if (depth > 0 || line !~ /[;},] *$/) return 0
    if (clause && line ~ /; *$/) print ";"
    return 1
}
skipping { depth += depth_of($0); if (is_done($0)) skipping = 0; next }
/^ *(pub )?(ghost|requires|ensures)[ *]/ {
    clause = ($0 ~ /^ *(requires|ensures)/)
    depth = depth_of($0)
    skipping = !is_done($0)
    docs = ""
    next
}
/^ *#!?\[tactic/ { next }
/^#\[cfg\(test\)\]/ { getline; next }
/^ *\/\/\// { docs = docs $0 "\n"; next }
{ printf "%s", docs; docs = ""; print }
