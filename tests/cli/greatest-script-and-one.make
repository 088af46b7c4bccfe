yes - | head -n 1048577
