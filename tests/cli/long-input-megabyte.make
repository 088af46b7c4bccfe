for i in $(seq 16); do printf '#%65534s\n' ''; done; printf '3 5\n2 3\n3 4\n4 5\n'
