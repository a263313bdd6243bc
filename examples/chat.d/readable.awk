# Lines of `messenger inbox`, each as `< ` and its text with the letters of UTF-8. Control bytes, marks that turn the
# direction of writing, and bytes that are no UTF-8 stay as \x and two digits.

BEGIN {
  for (number = 0; number < 256; number++) value_of[sprintf("%02x", number)] = number
}

# whether a byte is there, with nothing before it, that lies within bounds
function goes_on(at, low, high) { return at <= count && length(piece[at - 1]) == 2 && value[at] >= low && value[at] <= high }

# U+061C, U+200E, U+200F, U+2028 to U+202E, U+2066 to U+2069
function turns(at) {
  if (value[at] == 216) return value[at + 1] == 156
  if (value[at] != 226) return 0
  if (value[at + 1] == 128) return value[at + 2] ~ /^(142|143|168|169|17[0-4])$/
  return value[at + 1] == 129 && value[at + 2] ~ /^16[6-9]$/
}

# how many bytes make a letter, from one on, or 0
function size_of_letter(at, first, low, high, size, it) {
  first = value[at]
  if (first == 34 || first == 92) return 1
  if (first < 194 || first > 244) return 0
  size = first < 224 ? 2 : first < 240 ? 3 : 4
  low = first == 194 || first == 224 ? 160 : first == 240 ? 144 : 128
  high = first == 237 ? 159 : first == 244 ? 143 : 191
  for (it = 1; it < size; it++)
    if (!goes_on(at + it, it == 1 ? low : 128, it == 1 ? high : 191)) return 0
  return turns(at) ? 0 : size
}

{
  sub(/^[^"]*"/, "")
  sub(/"$/, "")
  count = split($0, piece, /\\x/)
  for (at = 2; at <= count; at++) value[at] = value_of[substr(piece[at], 1, 2)]
  printf "< %s", piece[1]
  for (at = 2; at <= count; at++) {
    size = size_of_letter(at)
    if (size == 0) {
      printf "\\x%s", piece[at]
      continue
    }
    for (last = at + size - 1; at < last; at++) printf "%c", value[at]
    printf "%c%s", value[at], substr(piece[at], 3)
  }
  printf "\n"
}
