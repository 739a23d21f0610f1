# Answers one line, and ends well.
if read -r _; then echo New; fi
