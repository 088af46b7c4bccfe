cat "${0%/*}/trace-below.in"
