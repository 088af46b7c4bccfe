printf 'seats 1 capacity 1\nleft 0\n#'; head -c 67108837 /dev/zero
