cat "$(dirname "$0")/../../examples/exchange.chill"
