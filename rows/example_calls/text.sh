cat "$(dirname "$0")/../../examples/calls.chill"
