# The reference with its answers and dumps edited as the sed script in EDIT says.
"$REFERENCE" "$@" | sed "$EDIT"
