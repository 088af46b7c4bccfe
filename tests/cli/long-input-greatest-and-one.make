printf '3 5\n2 3\n3 4\n4 5\n#'; head -c 67108848 /dev/zero
