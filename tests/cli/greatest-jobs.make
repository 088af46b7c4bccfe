awk 'BEGIN { print 100, 10; for (j = 0; j < 100; j++) { for (k = 0; k < 10; k++) printf "%d 1 ", k; print "" } }'
