awk 'BEGIN { print 1025, 1024; for (i = 0; i < 1025; i++) print 1, 1 }'
