head -c 262145 /dev/zero | tr '\0' ' '
