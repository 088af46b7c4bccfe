awk 'BEGIN { for (p = 0; p < 1048576; p++) print "+", 67108863, 1048576 - p }'
