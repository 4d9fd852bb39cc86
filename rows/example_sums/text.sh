cat "$(dirname "$0")/../../examples/sums.chill"
