cat "${0%/*}/trace-full-at-one.in"
