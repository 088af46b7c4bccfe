cat "${0%/*}/trace-in-order.in"
