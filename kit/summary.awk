# Adds up the lines that cases.awk has printed for each file, and says what was left out.
BEGIN {
    about["waits"] = "who waits for whom before closure; an interface that gives the closed order alone, as the C header does, has no such answer"
    about["unread"] = "how much of its input the sheet's program leaves unread; a library without a program has no such answer"
    about["start"] = about["tick"] = about["run"] = "the dispatcher, a product of its own on top of the annotator"
}
$2 == "agree" && $4 == "differ" {
    agree += $1
    differ += $3
    skipped += $5
}
$1 == "skip" { skips[$2] += $3 }
END {
    printf "%6d agree %6d differ %6d skipped  in all\n", agree, differ, skipped
    if (skipped > 0) print "skipped, so neither right nor wrong:"
    for (operation in skips)
        printf "%6d %s: %s\n", skips[operation], operation, (operation in about ? about[operation] : "the program does not offer this operation")
    if (agree + differ == 0) print "nothing was compared"
    exit differ > 0 || agree == 0
}
