awk 'BEGIN { print "1024 1000000000000"; for (i = 0; i < 1024; i++) print "1000000000 65535" }'
