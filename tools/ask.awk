# A script in which each line is followed by a question for each task's outcome and level, and a send or a receive also by one for
# each word that a task holds: none of them changes anything.
{ print }
NR > 1 {
    for (i = 0; i < 16; i++) print "outcome\t" i
    for (i = 0; i < 16; i++) print "level\t" i
}
NR > 1 && /^(send|receive)\t/ {
    for (i = 0; i < 16; i++) for (n = 0; n < 8; n++) print "word\t" i "\t" n
}
