cat "$(dirname "$0")/../../examples/office.chill"
