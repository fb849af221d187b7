# A long script over a table of accounts, made from a number, and what it must print, worked out here by plain maps.
# Eight sessions take turns, a transaction each: rows are put, changed, taken out and read, and about one transaction in five is
# rolled back. A key that is there already, or isn't there, is refused. It has so many lines, or one fewer.
#
# usage: awk -v lines=10000 -v seed=1 -v show=script -f examples/many.awk        the script
#        awk -v lines=10000 -v seed=1 -v show=transcript -f examples/many.awk    its transcript over a new database
function draw(below) { seed = seed * 16807 % 2147483647; return seed % below }
function say(text) { written++; if (show == "script") print session "> " text ";" }
function reply(text) {
    statements[session]++
    if (text ~ /^refused/) refused++
    if (show != "script") print session "." statements[session] ": " text
}
function begin() { say("BEGIN"); reply("begin at " commits); wrote = 0; changed = 0 }
# What an id had before the transaction's change is kept, newest last, for a rollback.
function keep(id) { before_id[changed] = id; before[changed] = (id in cents) ? cents[id] : ""; changed++ }
function insert(id, sum) {
    say("INSERT INTO accounts VALUES (" id ", 'n" id "', " sum ")")
    wrote = 1
    if (id in cents) { reply("refused Duplicate"); return }
    keep(id); cents[id] = sum; reply("done")
}
function update(id, sum) {
    say("UPDATE accounts SET cents = cents + " sum " WHERE id = " id)
    wrote = 1
    if (!(id in cents)) { reply("refused NotFound"); return }
    keep(id); cents[id] += sum; reply("done")
}
function delete_(id) {
    say("DELETE FROM accounts WHERE id = " id)
    wrote = 1
    if (!(id in cents)) { reply("refused NotFound"); return }
    keep(id); delete cents[id]; reply("done")
}
function select(id) {
    say("SELECT * FROM accounts WHERE id = " id)
    reply("rows " (id in cents))
    if (show != "script" && id in cents) print "  (" id ", 'n" id "', " cents[id] ")"
}
function act(kind, id) {
    if (kind < 4) insert(id, draw(1000) - 500)
    else if (kind < 7) update(id, draw(200) - 100)
    else if (kind < 8) delete_(id)
    else select(id)
}
function roll_back(  k) {
    say("ROLLBACK"); reply("rolled back")
    for (k = changed - 1; k >= 0; k--)
        if (before[k] == "") delete cents[before_id[k]]; else cents[before_id[k]] = before[k]
}
function commit() { say("COMMIT"); if (wrote) { commits++; reply("commit " commits) } else reply("commit none") }
BEGIN {
    if (!lines) lines = 10000
    if (!seed) seed = 1
    commits = 0; refused = 0; session = 1
    begin(); say("CREATE TABLE accounts (id INT PRIMARY KEY, name TEXT(8), cents INT)"); wrote = 1; reply("done"); commit()
    while (written < lines - 1) {
        session = session % 8 + 1
        begin()
        for (acts = draw(6) + 1; acts > 0 && written < lines - 1; acts--) act(draw(10), draw(1000) + 1)
        if (draw(5) == 0) roll_back(); else commit()
    }
    if (show != "script") print "end: commits " commits ", refused " refused ", undo 0"
}
