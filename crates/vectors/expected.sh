# Makes the file stdout beside it: sh expected.sh > stdout
line() {
    sum=$(sha256sum)
    printf '%s %s\n' "$1" "${sum%% *}"
}

# byte i is i % 251
counting() {
    python3 -c "import sys; sys.stdout.buffer.write(bytes(i % 251 for i in range($1)))"
}

# at once, and cut at each place
example() {
    printf '%s' "$2" | line "$1"
    for n in $(seq 0 ${#2}); do
        printf '%s' "$2" | line "${#2} bytes cut at $n"
    done
}

example empty ''
example abc abc
example '448 bits' abcdbcdecdefdefgefghfghighijhijkijkljklmklmnlmnomnopnopq
example '896 bits' abcdefghbcdefghicdefghijdefghijkefghijklfghijklmghijklmnhijklmnoijklmnopjklmnopqklmnopqrlmnopqrsmnopqrstnopqrstu
python3 -c "print('a' * 1000000, end='')" | line 'one million a'
for n in 0 1 55 56 57 63 64 65 119 120 1000; do
    counting $n | line "$n bytes"
    for k in 0 1 7 63 64 65 77 1000; do
        counting $n | line "$n bytes in pieces of $k"
    done
done
for how in 'in pieces of 0, 1, 63, 64, 65, 65, 64, 63, 1, 0 bytes and the rest' \
    'cut at 300 and back at 299' 'cut at 1000 and past the end' 'cut past the end' 'with no cut'; do
    counting 1000 | line "1000 bytes $how"
done
for n in 65536 65537; do
    counting $n | line "$n bytes in odd pieces"
done
