cat "${0%/*}/trace-seventy-equal.in"
