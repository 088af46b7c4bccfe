awk 'BEGIN { print 1024, 1024; for (i = 0; i < 1024; i++) print 1, 65535 }'
