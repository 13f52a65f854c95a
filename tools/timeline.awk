# Who ran when: awk -f timeline.awk SCRIPT LOG, where LOG is the log of the script with the questions of ask.awk in it.
function plain(s) {
    gsub(/\t/, " ", s)
    gsub(/[^ -~]/, "?", s)
    return length(s) > 24 ? substr(s, 1, 21) "..." : s
}
function longer(width, s) { return length(s) > width ? length(s) : width }
# How task i stands: RUN, a dot for ready, what it waits for, and behind it the level to which it is lifted.
function cell(i,   s) {
    if (i == run) s = "RUN"
    else if (outcome[i] == 1) s = (waits[i] ~ /^m/) ? waits[i] "<" owner[substr(waits[i], 2)] : waits[i]
    else s = "."
    return (level[i] < own[i]) ? s "^" level[i] : s
}
# What the caller waits for, from the step that it waits in: an owner that never changes is named at once.
function awaited() {
    if (word[1] == "lock") return "m" word[2]
    if (word[1] == "pend") return "s" word[2]
    if (word[1] == "receive") return "receive" word[2]
    if (word[1] == "send") return "send" word[2] ((receiver[word[2]] == "") ? "" : "<" receiver[word[2]])
    return "zz"
}
# A step's answer: who was made, who waits now and for what, who owns what, and who holds a message by it.
function answered() {
    if (number == 0 && word[1] == "task") { own[n] = word[2]; n++ }
    if (number == 0 && word[1] == "queue") { width[queues] = word[2]; receiver[queues] = word[4]; queues++ }
    if (number == 0 && word[1] == "tick") clock = (clock + 1) % 4294967296
    if (number == 0 && word[1] == "lock") owner[word[2]] = before
    if (number == 1) waits[before] = awaited()
    passed = (number == 0 && word[1] == "unlock") ? word[2] : ""
    if (passed != "") owner[passed] = "-"
    sent = (number == 0 && word[1] == "send") ? word[2] : ""
    holds = (number == 1 && word[1] == "send" || number == 0 && word[1] == "receive") ? before : ""
}
# Task i's outcome: one whose wait ended may have got the mutex that was passed on, or the message that was sent.
function ended(i, now) {
    if (outcome[i] != 1 || now != 0) return
    if (passed != "" && waits[i] == "m" passed) owner[passed] = i
    if (sent != "" && waits[i] == "receive" sent) holds = i
}
# One row, its parts kept until all widths are known.
function keep(   i) {
    front[++shown] = sprintf("%6d %6d  %-24s", line, clock, plain(script[line]))
    answer[shown] = number " " value
    answer_width = longer(answer_width, answer[shown])
    for (i = 0; i < n; i++) {
        cells[shown, i] = cell(i)
        cell_width = longer(cell_width, cells[shown, i])
    }
    if (holds == "") return
    message[shown] = holds " holds"
    for (i = 0; i < width[word[2]]; i++) message[shown] = message[shown] " " held[holds, i]
}
# Row `at` as it is printed, behind what it begins with.
function row(begun, reply, at,   i) {
    begun = begun sprintf(" %-" answer_width "s", reply)
    for (i = 0; i < n; i++) begun = begun sprintf(" %-" cell_width "s", cells[at, i])
    begun = begun " " message[at]
    sub(/ +$/, "", begun)
    return begun
}
FILENAME == ARGV[1] { script[FNR] = $0; next }
FNR == 1 {
    bad = ($1 != "log")
    if (bad) { print; exit }
    n = 0; queues = 0; clock = 0; shown = 0; run = "-"
    line = 1; at = 0; answer_width = 9; cell_width = 9
    next
}
at == 0 {
    line++
    split("", word)
    split(script[line], word, "\t")
    number = $1; value = $2; before = run; run = $3
    answered()
    last = (script[line] ~ /^(send|receive)\t/) ? 160 : 32
}
at > 0 && at <= 16 {
    ended(at - 1, $2)
    if ($1 == 0) outcome[at - 1] = $2
}
at > 16 && at <= 32 && $1 == 0 { level[at - 17] = $2 }
at > 32 && $1 == 0 { held[int((at - 33) / 8), (at - 33) % 8] = $2 }
{
    if (at == last) keep()
    at = (at == last) ? 0 : at + 1
}
END {
    if (bad) exit
    print "RUN runs, . is ready, m0<2 waits for mutex 0 that task 2 owns, s1 waits for semaphore 1, zz sleeps; ^3 is lifted to level 3"
    if (queues > 0) print "send0<2 waits to send to queue 0 that task 2 owns, receive1 to receive from queue 1; 2 holds 7 8: the message that it waits to send or got"
    for (i = 0; i < n; i++) cells[0, i] = i "(" own[i] ")"
    print row(sprintf("%6s %6s  %-24s", "line", "clock", "step"), "answer", 0)
    for (i = 1; i <= shown; i++) print row(front[i], answer[i], i)
}
