awk 'BEGIN { print 20, 19; for (i = 0; i < 20; i++) print 2, 2 }'
