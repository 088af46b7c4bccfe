cat "${0%/*}/limit-nodes-ft06.in"
