cat "${0%/*}/trace-largest-entry.in"
