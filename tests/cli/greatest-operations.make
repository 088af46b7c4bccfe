awk 'BEGIN { print 32, 32; for (j = 0; j < 32; j++) { for (k = 0; k < 32; k++) printf "%d 65535 ", k; print "" } }'
