# Sixteen lanes of a thousand insertions and as many removals, each with keys of its own order.
awk 'BEGIN { for (j = 0; j < 16; j++) { if (j) print "lane"
    for (k = 0; k < 1000; k++) print "+", k, j
    for (k = 0; k < 1000; k++) print "-" } }'
