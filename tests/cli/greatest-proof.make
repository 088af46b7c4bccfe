# Item 0, the first in the order, does not fit; then both ways at each of the other 20: 2,097,152 tokens.
printf '21 20\n100 10000\n'; yes '1 1' | head -n 20
printf 'value 20\nitems %s\nproof 2097152\nb\n' "$(seq -s ' ' 20)"
awk 'BEGIN { for (i = 1048576; i < 2097152; i++) { for (k = i; k % 2 == 0; k /= 2) print "b"; print "c" } }'
