# To be sourced by a script of tests: the two parts of a schedule, or of plans, around the line `----`.

# acts FILE: what the program reads
acts() { sed '/^----$/Q' "$1"; }

# printed FILE: what it prints of it; nothing where the file doesn't say it
printed() { sed '1,/^----$/d' "$1"; }
