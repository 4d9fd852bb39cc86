head -c 262144 /dev/zero | tr '\0' ' '
