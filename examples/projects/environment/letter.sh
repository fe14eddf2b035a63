echo "$GREETING, ${SECRET:-nobody}"
