awk 'BEGIN { print 22, 21; for (i = 0; i < 22; i++) print 2, 2 }'
