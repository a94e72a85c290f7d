# The element a with a text of 70,000 times x: 70,002 as an Unsigned Integer, and the characters, all of them from the
# fifth bit of a byte on.
printf '\200\100\230\177\052\040\107'
printf '%069999d' 0 | tr 0 '\207'
printf '\200'
