awk 'BEGIN { print "seats 1 capacity 1048576"; for (p = 0; p < 1048576; p++) print p, 1, "+", 1048575 - p, 0, "done"; print "left 1048576" }'
