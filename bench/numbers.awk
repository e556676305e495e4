# What lean, lines and rates share: numbers as digits and back, all below 2^53, where awk is exact, and chance.

BEGIN { TWO24 = 2 ^ 24; TWO32 = 2 ^ 32 }

# Prints a number as so many capital digits.
function hex(n, digits,    high) {
    if (digits <= 6) return sprintf("%0" digits "X", n)
    high = int(n / TWO24)
    return hex(high, digits - 6) sprintf("%06X", n - high * TWO24)
}
# The number that capital digits make.
function value(digits,    i, n) {
    for (i = 1; i <= length(digits); i++) n = n * 16 + index("0123456789ABCDEF", substr(digits, i, 1)) - 1
    return n
}
# A number below an end, by chance from the seed that drawn starts with, the same in every run and by every awk.
function chance(end) {
    drawn = (drawn * 1664525 + 1013904223) % TWO32
    return int(drawn / TWO32 * end)
}
