# The program of "shown" in site/common.sh: shows its argument, or else each line of standard input.
BEGIN { if (ARGC > 1) { print shown(ARGV[1]); exit } }
{ print shown($0) }
