awk 'BEGIN { print 10, 100; for (j = 0; j < 10; j++) { for (k = 0; k < 100; k++) printf "%d 1 ", k; print "" } }'
