cat "${0%/*}/../../examples/three-by-three.txt"
